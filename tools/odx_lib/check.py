"""`odx check`: what the program refuses, shown in the user's files, and warnings of what can find nothing."""
import collections
import os
import re
import tempfile

from . import answers, conllu, patterns, program, refusals, script, vocabulary
from .told import note, of, place

CURLY = "\u201c\u201d\u2018\u2019\u201e\u00ab\u00bb"
RELATIONS = {
    "dobj": "obj", "iobj": "iobj", "nsubjpass": "nsubj:pass", "csubjpass": "csubj:pass", "auxpass": "aux:pass",
    "pobj": "obl or nmod", "prep": "case", "nmod:agent": "obl:agent", "rcmod": "acl:relcl", "poss": "nmod:poss",
    "possessive": "case", "neg": "advmod", "nn": "compound", "num": "nummod", "xsubj": "nsubj", "agent": "obl:agent",
}


class Warnings:
    """Warnings of one grammar, each once, in the order of the file."""

    def __init__(self, grammar, words=None):
        self.grammar, self.words = grammar, words
        self.found = []
        self.seen = set()

    def say(self, rule, placed, at, text):
        line = placed.place(at)[0] if placed else rule.line
        front = "the query" if self.grammar.is_query else f"{place(self.grammar.path, line)}: rule {rule.name}"
        if (rule.name, text) not in self.seen:
            self.seen.add((rule.name, text))
            self.found.append((line, f"{front}: warning: {text}"))

    def lines(self):
        return [text for _, text in sorted(self.found, key=lambda x: x[0])]


def warnings(grammar, words, rounds):
    """What can find nothing, told from the grammar and, where words are given, from the texts."""
    out = Warnings(grammar, words)
    for rule in grammar.rules:
        placed = grammar.expanded(rule)
        asks = patterns.asked(placed.text, rule.is_event)
        for ask in asks:
            if ask.field != "label":
                of_value(out, rule, placed, ask)
        of_signs(out, rule, placed)
        of_rounds(out, rule, placed, rounds)
    entity_key(out)
    return out.lines()


def of_value(out, rule, placed, ask):
    """One value that a pattern asks for."""
    lexeme, value = ask.lexeme, ask.lexeme.value
    if any(sign in lexeme.text for sign in CURLY):
        out.say(rule, placed, ask.at, f"typographic quotes are letters of a word: {lexeme.text}; quotes are \" and '")
        return
    if lexeme.kind == "quoted" and re.fullmatch(r"/.*/", value):
        out.say(rule, placed, ask.at, f"an expression within quotes is a plain text: write {value} without the quotes")
        return
    if ask.field == "norm" and lexeme.kind == "regex" and "(?i" not in value:
        if re.search(r"[A-Z]", re.sub(r"\\[pP](\{[^}]*\}|.)|\\.", "", value)):
            out.say(rule, placed, ask.at, f"norms are in small letters, and {lexeme.text} asks for capital ones; write small letters or (?i)")
            return
    if out.words is not None:
        of_text(out, rule, placed, ask)


def of_text(out, rule, placed, ask):
    """A value that no text has, with what it may have meant."""
    lexeme, value, field = ask.lexeme, ask.lexeme.value, ask.field
    known = out.words.values(field)
    if field == "entity" and not known or field == "chunk" and not known:
        return
    what = {"relation": "relation", "tag": "tag", "norm": "word"}.get(field, field)
    if lexeme.kind == "regex":
        try:
            form = re.compile(value)
        except re.error:
            return
        if any(form.fullmatch(x) for x in known):
            return
        inner = [x for x in known if form.search(x)][:3]
        more = f"; it must fit the whole {what}, as /.*{value}.*/ does, and a part fits in {', '.join(inner)}" if inner else ""
        out.say(rule, placed, ask.at, f"no {what} of the texts fits {lexeme.text}{more}")
        return
    wanted = value.casefold() if field == "norm" else value
    if wanted in known:
        return
    more = hint_of_value(out, lexeme, wanted, field, known)
    out.say(rule, placed, ask.at, f"no {what} of the texts is {value}{more}")


def hint_of_value(out, lexeme, wanted, field, known):
    if field == "relation":
        family = [x for x in known if x.startswith(wanted + ":") or wanted.startswith(x + ":")]
        if family:
            return f"; there is {', '.join(family)}, and a relation must be equal: /{wanted.split(':')[0]}(:.*)?/ fits all of them"
        if wanted in RELATIONS:
            return f"; in Universal Dependencies 2 it is {RELATIONS[wanted]}"
    if lexeme.kind == "quoted" and re.search(r"[*+?\\|\[^]", wanted) and len(wanted) > 1:
        return f"; a text within quotes is no expression: /{wanted}/"
    other = {"upos": "tag", "tag": "upos"}.get(field)
    if other and wanted in out.words.values(other):
        return f"; {other} has it: write {other}={wanted}"
    close = refusals.near(wanted, known)
    return f"; near: {', '.join(close)}" if close else ""


def of_signs(out, rule, placed):
    for found in re.finditer(r"\$([A-Za-z_]\w*)", placed.text):
        out.say(rule, placed, found.start(), f"$ is the end of the sentence, and `{found.group(1)}` behind it a word; a variable is ${{{found.group(1)}}}")
    for found in re.finditer(f"[{CURLY}]", placed.text):
        out.say(rule, placed, found.start(), "typographic quotes are letters of a word; quotes are \" and '")
        break


def of_rounds(out, rule, placed, rounds):
    """Rounds in which a rule cannot find what it waits for."""
    front = rule.keys.get("priority", placed)
    if rule.first > rounds:
        out.say(rule, front, 0, f"it runs from round {rule.first} on, and the session has {of(rounds, 'round')}: it never runs")
        return
    for label, quantifier, at in needs(rule, placed):
        sources = [x for x in out.grammar.rules if x.label == label and x is not rule]
        if not sources:
            continue
        ready = min(x.first for x in sources) + 1
        full = max(x.first for x in sources) + 1
        if min(rule.last, rounds) < ready:
            ends = f"the rule runs last in round {rule.last}" if rule.last < ready else f"the session has {of(rounds, 'round')}"
            out.say(rule, placed, at, f"mentions of {label} can be seen from round {ready} on, and {ends}: it never sees one")
        elif quantifier and rule.first < full:
            out.say(
                rule, placed, at,
                f"it runs from round {rule.first} on, and in round {full - 1} mentions of {label} still come, which {quantifier} does not wait for: "
                f"mentions without them stay beside the full ones; priority {full} waits",
            )


def needs(rule, placed):
    """The labels that a rule names: (label, the quantifier of its argument, place)."""
    out = []
    quantifiers = {line.label: line.quantifier for line in patterns.event_lines(placed.text) if line.label} if rule.is_event else {}
    for ask in patterns.asked(placed.text, rule.is_event):
        if ask.field == "label":
            label = ask.lexeme.text
            behind = placed.text[ask.at - 1 : ask.at] == "@"
            out.append((label, "" if behind else quantifiers.get(label, ""), ask.at))
    return out


def entity_key(out):
    """`entity` is asked for, and the texts have it under another key or in another form."""
    if out.words is None:
        return
    for field, key in (("entity", "Entity"), ("chunk", "Chunk")):
        known = out.words.values(field)
        for rule in out.grammar.rules:
            placed = out.grammar.expanded(rule)
            asks = [x for x in patterns.asked(placed.text, rule.is_event) if x.field == field]
            if asks and not known:
                others = [x for x in out.words.values("misc") if not x.startswith("Space")]
                more = f"; MISC has {', '.join(sorted(others)[:6])}: `odx enrich --rename KEY={key}` writes it" if others else ""
                out.say(rule, placed, asks[0].at, f"no token of the texts has {key}= in MISC{more}")
            for ask in asks:
                if known and ask.lexeme.kind != "regex" and ask.lexeme.value not in known:
                    parts = [x for x in known if re.fullmatch(r"[A-Z]-" + re.escape(ask.lexeme.value), x)]
                    if parts:
                        out.say(rule, placed, ask.at, f"the texts have {', '.join(parts)}: /[A-Z]-{ask.lexeme.value}/ fits them")


def silent_lines(grammar, rules, paths, most=8):
    out = []
    for rule in rules[:most]:
        front = "the query" if grammar.is_query else f"{place(grammar.path, rule.line)}: rule {rule.name}"
        target = quoted(grammar.source) if grammar.is_query else f"{grammar.path} {rule.name}"
        word = f"odx why {target} {' '.join(paths[:3])}{' ..' if len(paths) > 3 else ''}"
        out.append(f"{front} found nothing; `{word}` shows where its way ends")
    if len(rules) > most:
        out.append(f"{len(rules) - most} further rules found nothing")
    return out


def quoted(text):
    return "'" + text.replace("'", "'\\''") + "'"


def word(arguments, grammars, paths):
    """The word itself. Status 0: nothing to say; 1: warnings; 2: it is refused."""
    said = 0
    path = program.found(arguments.program)
    words = vocabulary.Vocabulary(paths) if paths else None
    for grammar in grammars:
        refused = False
        if path:
            refused, lines = asked_program(path, grammar, paths, arguments)
            for line in lines:
                print(line)
            said = max(said, 2 if refused else 1 if lines else 0)
        if not refused:
            lines = warnings(grammar, words, arguments.rounds)
            print("".join(line + "\n" for line in lines), end="")
            said = max(said, 1 if lines else 0)
    for line in words.odd if words else []:
        print(line)
        said = max(said, 1)
    if path is None:
        note("the program is not built, so it was not asked what it refuses (--program PATH names one)")
    elif not said:
        note("nothing is wrong" + ("" if paths else "; with texts behind the grammar more is looked at"))
    return said


def asked_program(path, grammar, paths, arguments):
    """Gives the grammar, with the texts or alone, to the program: (refused, lines)."""
    with tempfile.TemporaryDirectory(prefix="odx.") as folder:
        made = f"{folder}/script"
        with open(made, "wb") as file:
            built = script.Built(file, [grammar], arguments.rounds)
            if paths and sum_of(paths) < script.MOST_SCRIPT - 65536:
                for piece in conllu.all_pieces(paths):
                    built.document(piece)
                built.end()
        done = program.run(path, made, folder)
        if done.status > 1:
            return True, refusals.Reader([grammar], ["g1"]).lines(done.diagnostic)
        told, found = [], collections.Counter()
        for _, value in answers.lines(done.output):
            if "command" not in value:
                found[value["rule"]] += 1
            elif value["reply"] == "BadDoc":
                told += refusals.document_lines(value, paths)
            elif value["reply"] != "ok":
                told += refusals.session_lines(value, [grammar])
        refused = bool(told)
        if built.documents and not refused:
            rules = [rule for rule in grammar.rules if not found[rule.name]]
            told += silent_lines(grammar, rules, paths)
        return refused, told


def sum_of(paths):
    return sum(os.path.getsize(path) for path in paths)

