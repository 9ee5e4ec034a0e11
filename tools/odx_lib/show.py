"""`odx show`: mentions as lines with their context, as a table, as CSV, for brat, as counts, as a page."""
import collections
import csv
import json
import os
import sys

from . import answers, conllu, page, refusals, scripts
from .told import Progress, Told, note, of

FIELDS = ("document", "sentence", "sent_id", "start", "end", "label", "rule", "text", "arguments", "context")
WIDTH = 34


class Filter:
    """Which mentions are shown."""

    def __init__(self, labels=None, rules=None, longest=False):
        self.labels, self.rules, self.longest = set(labels or ()), set(rules or ()), longest

    def takes(self, mention):
        return (not self.labels or mention["label"] in self.labels) and (not self.rules or mention["rule"] in self.rules)


class Reading:
    """The mentions of outputs, filtered, with what was refused told once."""

    def __init__(self, outputs, chosen, paths=(), grammars=()):
        self.outputs, self.chosen, self.paths, self.grammars = outputs, chosen, list(paths), list(grammars)
        self.refused = 0
        self.by_label = collections.Counter()
        self.by_rule = collections.Counter()

    def tell_refused(self, path, entry):
        self.refused += 1
        if self.refused > 10:
            return
        if entry["reply"] == "BadDoc" and self.paths:
            note(*refusals.document_lines(entry, self.paths))
        elif entry["reply"] in ("Crowded", "TooMany") and self.grammars:
            note(*refusals.session_lines(entry, self.grammars))
        elif not (entry["reply"] == "NoSession" and self.refused > 1):
            note(f"{path}: `{entry['command']} {entry.get('name', '')}` is refused ({entry['reply']}): {scripts.REPLIES.get(entry['reply'], 'see FORMATS')}")

    def mentions(self):
        """One at a time; with `longest` those of a session together, which a session's weight bounds."""
        progress = Progress("mentions")
        for path in self.outputs:
            waiting = []
            for _, value in answers.lines(path):
                if "command" in value:
                    if value["reply"] != "ok":
                        self.tell_refused(path, value)
                    if waiting and value["command"] == "print":
                        yield from self.counted(longest(waiting))
                        waiting = []
                    continue
                progress.add()
                if not self.chosen.takes(value):
                    continue
                if self.chosen.longest:
                    waiting.append(value)
                else:
                    yield from self.counted([value])
            yield from self.counted(longest(waiting))
        progress.end()

    def counted(self, mentions):
        for mention in mentions:
            self.by_label[mention["label"]] += 1
            self.by_rule[mention["label"], mention["rule"]] += 1
            yield mention


def longest(mentions):
    """Without those that another of the same label in the same sentence contains: a longer span around it, or the same
    span with its arguments and more."""
    groups = collections.defaultdict(list)
    for mention in mentions:
        groups[mention["document"], mention["sentence"], mention["label"]].append(mention)
    return [m for m in mentions if not any(contains(other, m) for other in groups[m["document"], m["sentence"], m["label"]])]


def bag(mention):
    return collections.Counter((x["name"], x["start"], x["end"]) for x in mention["arguments"])


def contains(outer, inner):
    if (outer["start"], outer["end"]) == (inner["start"], inner["end"]):
        return len(outer["arguments"]) > len(inner["arguments"]) and not bag(inner) - bag(outer)
    return outer["start"] <= inner["start"] and inner["end"] <= outer["end"]


class Context:
    """The sentence of a mention, or its own words where the texts are not at hand."""

    def __init__(self, texts):
        self.texts = texts
        self.told = False

    def of(self, mention):
        sentence = self.texts.sentence(mention["document"], mention["sentence"]) if self.texts else None
        if sentence is None and self.texts and not self.told:
            self.told = True
            note(f"document {mention['document']} has no sentence {mention['sentence']} in these texts: give the same texts, in the order in which the script was made")
        return sentence

    def id(self, mention, sentence):
        return (sentence.sent_id if sentence else None) or str(mention["sentence"])


def parts_of(mention, sentence):
    """The text before a mention, the mention, and the text behind it, as they were written."""
    if sentence is None:
        return "", mention["text"], ""
    begin, end = sentence.span(mention["start"], mention["end"])
    return sentence.text[:begin], sentence.text[begin:end], sentence.text[end:]


def fitted(text, width, right):
    text = text.strip()
    if len(text) > width:
        text = "\u2026" + text[-(width - 1) :] if right else text[: width - 1] + "\u2026"
    return text.rjust(width) if right else text.ljust(width)


def as_lines(reading, context, out):
    """Keyword in context: place, the text before, the mention, the text behind, label and arguments."""
    for mention in reading.mentions():
        sentence = context.of(mention)
        left, text, right = parts_of(mention, sentence)
        found = "; ".join(answers.argument_words(mention))
        where = f"{mention['document']}:{context.id(mention, sentence)}"
        out.write(f"{where:16}  {fitted(left, WIDTH, True)} [{text}] {fitted(right, WIDTH - len(text), False)}  {mention['label']}{'  ' + found if found else ''}\n")


def as_table(reading, context, out):
    """One line for each mention, between tabs: place, label, text, arguments."""
    for mention in reading.mentions():
        where = f"{mention['document']}:{context.id(mention, context.of(mention))}"
        out.write("\t".join([where, mention["label"], mention["text"], "; ".join(answers.argument_words(mention))]).rstrip("\t") + "\n")


def as_list(reading, context, out):
    """The short form that `odx compare` reads and a user can write: DOCUMENT SENTENCE LABEL text[name:Label=text; ..]."""
    for mention in reading.mentions():
        found = "; ".join(answers.argument_words(mention))
        out.write(f"{mention['document']} {mention['sentence']} {mention['label']} {mention['text']}[{found}]\n")


def as_csv(reading, context, out):
    table = csv.writer(out, lineterminator="\n")
    table.writerow(FIELDS)
    for mention in reading.mentions():
        sentence = context.of(mention)
        found = "; ".join(answers.argument_words(mention))
        row = [mention[x] for x in ("document", "sentence")] + [sentence.sent_id or "" if sentence else ""]
        table.writerow(row + [mention[x] for x in ("start", "end", "label", "rule", "text")] + [found, sentence.text if sentence else ""])


def as_json(reading, context, out):
    for mention in reading.mentions():
        out.write(json.dumps(mention, ensure_ascii=False, sort_keys=True, separators=(",", ":")) + "\n")


def as_counts(reading, context, out):
    for _ in reading.mentions():
        pass
    for label, count in sorted(reading.by_label.items(), key=lambda x: (-x[1], x[0])):
        out.write(f"{count:9,}  {label}\n")
        for (_, rule), number in sorted(((x, n) for x, n in reading.by_rule.items() if x[0] == label), key=lambda x: (-x[1], x[0])):
            out.write(f"{number:9,}      {rule}\n")


FORMS = {"lines": as_lines, "table": as_table, "list": as_list, "csv": as_csv, "json": as_json, "counts": as_counts}


class Brat:
    """Files for brat: NAME.txt with the texts, NAME.ann with a T for each span and an E for each mention with arguments."""

    def __init__(self, texts, folder):
        self.texts, self.folder = texts, folder
        self.documents = {}

    def add(self, mention):
        document = mention["document"]
        if document not in self.texts:
            raise Told(f"document {document} is in none of the texts: give the same texts, in the order in which the script was made")
        rows, spans = self.documents.setdefault(document, ([], {}))
        trigger = self.span(rows, spans, mention, mention["label"], mention["start"], mention["end"])
        found = [self.argument(rows, spans, mention, x) for x in mention["arguments"]]
        if trigger and found:
            spans["events"] = spans.get("events", 0) + 1
            rows.append(f"E{spans['events']}\t{mention['label']}:{trigger} {' '.join(x for x in numbered(found) if x)}".rstrip())

    def argument(self, rows, spans, mention, argument):
        label = argument.get("label") or "Argument"
        span = self.span(rows, spans, mention, label, argument["start"], argument["end"])
        return (argument["name"], span) if span else None

    def span(self, rows, spans, mention, label, start, end):
        key = (mention["sentence"], start, end, label)
        if key not in spans:
            sentence = self.texts.sentence(mention["document"], mention["sentence"])
            if sentence is None or start >= end:
                return None
            begin, last = sentence.span(start, end)
            offset = self.offset(mention["document"], mention["sentence"], spans)
            name = spans[key] = f"T{spans.setdefault('texts', 0) + 1}"
            spans["texts"] += 1
            rows.append(f"{name}\t{label} {offset + begin} {offset + last}\t{sentence.text[begin:last]}")
        return spans[key]

    def offset(self, document, number, spans):
        """Where the sentence begins in the document's text, whose sentences are lines."""
        if "offsets" not in spans:
            offsets, at = [], 0
            for each in range(self.texts.count(document)):
                offsets.append(at)
                at += len(self.texts.sentence(document, each).text) + 1
            spans["offsets"] = offsets
        return spans["offsets"][number]

    def write(self):
        try:
            os.makedirs(self.folder, exist_ok=True)
            for document in self.texts.documents():
                rows = self.documents.get(document, ([], {}))[0]
                with open(os.path.join(self.folder, document + ".txt"), "w", encoding="utf-8", newline="") as file:
                    for number in range(self.texts.count(document)):
                        file.write(self.texts.sentence(document, number).text + "\n")
                with open(os.path.join(self.folder, document + ".ann"), "w", encoding="utf-8", newline="") as file:
                    file.writelines(row + "\n" for row in rows)
        except OSError as fault:
            raise Told(f"{fault.filename}: {fault.strerror}; --brat names a folder")


def numbered(found):
    """Arguments as brat wants them: a name that stands again gets a number."""
    seen = collections.Counter()
    for item in found:
        if item:
            name, span = item
            seen[name] += 1
            yield f"{name}{seen[name] if seen[name] > 1 else ''}:{span}"


def show(arguments, outputs, paths, grammars=(), more=()):
    """The mentions of the outputs in the form that is asked for; the status."""
    texts = conllu.Texts(paths) if paths else None
    reading = Reading(outputs, Filter(arguments.label, arguments.rule, arguments.longest), paths, grammars)
    if (arguments.brat or arguments.html) and not texts:
        raise Told(f"--{'brat' if arguments.brat else 'html'} needs the texts: --text FILE.conllu ..")
    if arguments.brat:
        brat = Brat(texts, arguments.brat)
        for mention in reading.mentions():
            brat.add(mention)
        brat.write()
    elif arguments.html:
        page.write(arguments.html, reading, texts, arguments.all)
    else:
        FORMS[arguments.form](reading, Context(texts), sys.stdout)
        sys.stdout.flush()
    told = ", ".join(f"{label} {count:,}" for label, count in reading.by_label.most_common())
    if arguments.form != "counts":
        note(f"{of(sum(reading.by_label.values()), 'mention')}{': ' + told if told else ''}", *more)
    return 1 if reading.refused else 0


def word(arguments):
    return show(arguments, arguments.outputs, arguments.text or [])
