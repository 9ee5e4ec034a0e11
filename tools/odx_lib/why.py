"""`odx why`: a rule cut down, part by part, to see where it loses what it should find."""
import collections
import os
import tempfile

from . import answers, conllu, patterns, program, refusals, rulefile, script
from .told import Told, note, of

EXAMPLES = 2


class Asking:
    """Runs the grammar with one rule changed, and takes what that rule then finds."""

    def __init__(self, binary, grammar, rule, paths, rounds, folder):
        self.binary, self.grammar, self.rule = binary, grammar, rule
        self.paths, self.rounds, self.folder = paths, rounds, folder

    def run(self, kind, pattern, priority=None):
        """The mentions of the changed rule with their rounds, or None where the program refuses it."""
        text = self.changed(kind, pattern, priority)
        grammar = rulefile.Grammar("rules", text)
        path = os.path.join(self.folder, "asked.script")
        with open(path, "wb") as file:
            script.write(file, [grammar], self.paths, self.rounds)
        done = program.run(self.binary, path, self.folder)
        if done.status > 1:
            return None
        found = [(m, r) for m, r in answers.with_rounds(done.output) if m["rule"] == self.rule.name]
        os.remove(done.output)
        return found

    def changed(self, kind, pattern, priority):
        out = ["rules:"]
        for rule in self.grammar.rules:
            own = rule is self.rule
            body = pattern if own else self.grammar.expanded(rule).text
            of_rule = {
                "name": rule.name, "label": rule.label, "type": kind if own else rule.text("type", "basic"),
                "priority": priority if own and priority else rule.text("priority", "1+"),
            }
            for number, (key, value) in enumerate(of_rule.items()):
                out.append(f"{'- ' if number == 0 else '  '}{key}: {written(value)}")
            out.append("  pattern: |")
            out += ["    " + line for line in body.rstrip("\n").split("\n")]
        return "\n".join(out) + "\n"

    def all_mentions(self):
        """Every mention of the grammar as it stands, with its round; a diagnostic where it is refused."""
        path = os.path.join(self.folder, "whole.script")
        with open(path, "wb") as file:
            script.write(file, [self.grammar], self.paths, self.rounds)
        done = program.run(self.binary, path, self.folder)
        if done.status > 1:
            return None, done.diagnostic
        return list(answers.with_rounds(done.output)), None


def written(value):
    return '"' + value.replace("\\", "\\\\").replace('"', '\\"') + '"'


def spans(found):
    """The different places of mentions."""
    return {(m["document"], m["sentence"], m["start"], m["end"]) for m, _ in found or ()}


def rounds_of(found):
    counts = collections.Counter(r for _, r in found)
    return ", ".join(f"{count:,} in round {number}" for number, count in sorted(counts.items()))


def line(count, text, more=""):
    print(f"{'refused' if count is None else format(count, ','):>8}  {text}{'   ' + more if more else ''}")


class Why:
    """What is told of a rule."""

    def __init__(self, asking, texts, whole):
        self.asking, self.texts, self.whole = asking, texts, whole
        self.grammar, self.rule = asking.grammar, asking.rule
        self.pattern = asking.grammar.expanded(asking.rule).text

    def tell(self):
        own = [(m, r) for m, r in self.whole if m["rule"] == self.rule.name]
        runs = self.rule.text("priority", "1+")
        print(f"{self.grammar.shown}: rule {self.rule.name}, label {self.rule.label}, runs in rounds {runs}")
        line(len(own), "mentions as it stands", rounds_of(own))
        self.labels()
        print("parts of it, alone (places found):")
        return self.event() if self.rule.is_event else self.basic(self.pattern)

    def labels(self):
        """The labels that the rule waits for, with the rounds in which they come."""
        for ask in dict.fromkeys(a.lexeme.text for a in patterns.asked(self.pattern, self.rule.is_event) if a.field == "label"):
            found = [(m, r) for m, r in self.whole if m["label"] == ask and m["rule"] != self.rule.name]
            if not found:
                line(0, f"mentions of {ask}: no other rule found one")
                continue
            first = min(r for _, r in found)
            late = f"the rule runs last in round {self.rule.last}, and sees them from round {first + 1} on" if self.rule.last <= first else ""
            line(len(found), f"mentions of {ask}", "; ".join(x for x in (rounds_of(found), late) if x))

    def event(self):
        lines = patterns.event_lines(self.pattern)
        if not lines:
            return 1
        trigger, arguments = lines[0], lines[1:]
        front = f"trigger = {trigger.body.strip()}"
        found = self.asking.run("event", front)
        line(len(spans(found)), front)
        if not found:
            print("no trigger is found; part by part:")
            return self.basic(trigger.body)
        for argument in arguments:
            self.argument(front, argument, found)
        return 0

    def argument(self, front, argument, triggers):
        """The triggers that have this argument, with its label and without; and where its path ends."""
        label = f":{argument.label}" if argument.label else ""
        name, path = argument.name, argument.body.strip()
        having = self.asking.run("event", f"{front}\n{name}{label} = {path}")
        absent = "may be absent" if argument.quantifier in ("?", "*") else ""
        line(None if having is None else len(spans(having)), argument.whole, absent)
        reached = having
        if label:
            reached = self.asking.run("event", f"{front}\n{name} = {path}")
            line(None if reached is None else len(spans(reached)), f"    the same without {label}")
            if spans(reached) - spans(having):
                self.unlabelled(argument.label, reached, spans(having))
        if reached is not None and spans(triggers) - spans(reached):
            self.path(front, name, path, triggers, spans(reached))

    def unlabelled(self, label, reached, having):
        """Reached tokens that no mention of the label holds."""
        shown = 0
        at = collections.defaultdict(list)
        for m, r in self.whole:
            if m["label"] == label:
                at[m["document"], m["sentence"]].append((m["start"], m["end"], r))
        for mention, _ in reached:
            if (mention["document"], mention["sentence"], mention["start"], mention["end"]) in having or shown == EXAMPLES:
                continue
            shown += 1
            argument = mention["arguments"][-1]
            here = [x for x in at[mention["document"], mention["sentence"]] if x[0] < argument["end"] and argument["start"] < x[1]]
            what = f"{label} holds it from round {min(x[2] for x in here)} on: does the rule run too early?" if here else f"no mention of {label} holds it"
            print(f"{'':14}{self.where(mention)}: from {mention['text']} it reaches {argument['text']}; {what}")

    def path(self, front, name, path, triggers, having):
        """Step by step: how many triggers lead on, and what leads on from where the way ends."""
        for alternative in patterns.parts(path, path=True):
            if len(alternative) == 0:
                continue
            before = triggers
            for number in range(len(alternative)):
                text = " ".join(part.text for part in alternative[: number + 1])
                after = self.asking.run("event", f"{front}\n{name} = {text}")
                if after is None:
                    break
                if len(alternative) > 1 or "|" in path:
                    line(len(spans(after)), f"    {text}")
                lost = spans(before) - spans(after)
                if lost and not (lost <= having):
                    self.ends(before, lost - having, alternative[number].text, number == 0)
                if not after:
                    break
                before = after

    def ends(self, before, lost, step, at_trigger):
        shown = set()
        for mention, _ in before:
            key = (mention["document"], mention["sentence"], mention["start"], mention["end"])
            if key not in lost or key in shown or len(shown) == EXAMPLES:
                continue
            shown.add(key)
            argument = mention if at_trigger or not mention["arguments"] else mention["arguments"][-1]
            print(f"{'':14}{self.where(mention)}: {step} ends at {argument['text']}; {self.arcs(mention, argument)}")

    def where(self, mention):
        return self.texts.where(mention["document"], mention["sentence"])

    def arcs(self, mention, span):
        """The arcs of a span's tokens, as a path would write them."""
        sentence = self.texts.sentence(mention["document"], mention["sentence"])
        if sentence is None:
            return ""
        inside = range(span["start"], min(span["end"], len(sentence.tokens)))
        down = [f">{t.relation} {t.form}" for k, t in enumerate(sentence.tokens) if t.head in inside and k not in inside]
        up = [
            f"<{sentence.tokens[k].relation} {sentence.tokens[sentence.tokens[k].head].form}"
            for k in inside if 0 <= sentence.tokens[k].head < len(sentence.tokens) and sentence.tokens[k].head not in inside
        ]
        return "from there lead " + ", ".join(down + up) if down or up else "no arc leads from there"

    def basic(self, pattern):
        """A pattern from its front, one part more each time."""
        for alternative in patterns.parts(pattern):
            before = None
            for number in range(len(alternative)):
                text = " ".join(part.text for part in alternative[: number + 1])
                asked = text + " []" if alternative[number].step else text
                found = self.asking.run("basic", asked)
                line(None if found is None else len(spans(found)), text, "(then any token)" if asked != text and found is not None else "")
                if found is None:
                    continue
                if not found:
                    self.basic_end(before, alternative[number])
                    break
                before = found
        return 0

    def basic_end(self, before, part):
        """Where the last part that found something stands, and what leads on from there."""
        shown = 0
        for mention, _ in before or ():
            if shown == EXAMPLES:
                break
            shown += 1
            if part.step:
                print(f"{'':14}{self.where(mention)}: {part.text} ends at {mention['text']}; {self.arcs(mention, mention)}")
            else:
                sentence = self.texts.sentence(mention["document"], mention["sentence"])
                rest = sentence.words(mention["end"], mention["end"] + 4) if sentence else ""
                print(f"{'':14}{self.where(mention)}: behind {mention['text']} stands {rest or 'nothing'}")


def chosen(grammar, name):
    """The rule that is asked for: by its name, or by a label that one rule has."""
    named = [rule for rule in grammar.rules if rule.name == name] or [rule for rule in grammar.rules if rule.label == name]
    if not named:
        known = [rule.name for rule in grammar.rules]
        near = refusals.near(name, known) or known[:8]
        raise Told(f"{grammar.shown}: no rule is named {name}; there {'is' if len(near) == 1 else 'are'} {', '.join(near)}")
    if len(named) > 1:
        note(f"several rules have the label {name}: {', '.join(rule.name for rule in named)}; this is {named[0].name}")
    return named[0]


def word(arguments, grammar, name, paths):
    binary = program.needed(arguments.program)
    rule = chosen(grammar, name)
    with tempfile.TemporaryDirectory(prefix="odx.") as folder:
        asking = Asking(binary, grammar, rule, paths, arguments.rounds, folder)
        whole, diagnostic = asking.all_mentions()
        if whole is None:
            note(*refusals.Reader([grammar], ["g1"]).lines(diagnostic))
            return 2
        texts = conllu.Texts(paths)
        if not texts.documents():
            raise Told("the texts have no sentence")
        status = Why(asking, texts, whole).tell()
        note(of(len({(m["document"], m["sentence"]) for m, _ in whole}), "sentence") + " with mentions of the grammar")
        return status
