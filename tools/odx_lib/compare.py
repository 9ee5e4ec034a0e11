"""`odx compare`: what was found against what should be: precision, recall, what is missing and what is too much."""
import collections
import csv
import re

from . import answers, conllu
from .told import Told, of


def kind(path):
    """json, csv or list, by the first line that says something."""
    try:
        with open(path, encoding="utf-8", errors="replace") as file:
            for line in file:
                if line.strip() and not line.startswith("#"):
                    return "json" if line.startswith("{") else "csv" if line.startswith("document,") else "list"
    except OSError as fault:
        raise Told(f"{path}: {fault.strerror}")
    return "list"


def read(path, spans, labels):
    """Both keys of each mention: with places where the file has them, and of texts."""
    form = kind(path)
    rows = {"json": of_json, "csv": of_csv, "list": of_list}[form](path)
    places, texts = collections.Counter(), collections.Counter()
    for place_key, text_key in rows:
        if labels and text_key[2] not in labels:
            continue
        if spans:
            place_key, text_key = place_key[:5] if place_key else None, text_key[:4]
        if place_key:
            places[place_key] += 1
        texts[text_key] += 1
    return places if form == "json" else None, texts


def of_json(path):
    for mention in answers.mentions([path]):
        found = tuple(sorted(answers.argument_words(mention)))
        head = (mention["document"], str(mention["sentence"]), mention["label"])
        yield answers.key(mention), head + (mention["text"], found)


def of_csv(path):
    with open(path, encoding="utf-8", newline="") as file:
        table = csv.DictReader(file)
        needed = ("document", "sentence", "label", "text", "arguments")
        for name in needed:
            if name not in (table.fieldnames or ()):
                raise Told(f"{path}:1: the column {name} is missing; the first line names the columns, as `odx show --csv` writes them")
        for row in table:
            if None in row.values() or None in row:
                raise Told(f"{path}:{table.line_num}: the line has not as many columns as the first")
            head = (row["document"], row["sentence"], row["label"])
            yield None, head + (row["text"], tuple(sorted(arguments_of(row["arguments"]))))


LIST = re.compile(r"(?:(\S+) )?(\d+) ([A-Za-z_]\w*) (.*)\[(.*)\]$")


def of_list(path):
    with open(path, "rb") as file:
        for number, raw in enumerate(file, 1):
            try:
                line = raw.decode().rstrip("\r\n")
            except UnicodeDecodeError:
                raise Told(f"{path}:{number}: these bytes are not UTF-8")
            if not line.strip() or line.startswith("#"):
                continue
            found = LIST.match(line)
            if not found:
                raise Told(f"{path}:{number}: this is no mention: {line[:60]}", "  a line is DOCUMENT SENTENCE LABEL text[name=text; name:Label=text], as `odx show --list` writes it")
            document, sentence, label, text, inner = found.groups()
            yield None, (document or "", sentence, label, text, tuple(sorted(arguments_of(inner))))


def arguments_of(text):
    return [x.strip() for x in text.split("; ") if x.strip()]


def rate(part, whole):
    return f"{part / whole:.3f}" if whole else "-"


def counts(found, gold):
    """By label: found, gold, both."""
    out = collections.defaultdict(lambda: [0, 0, 0])
    for side, bag in enumerate((found, gold)):
        for item, count in bag.items():
            out[item[2]][side] += count
    for item, count in (found & gold).items():
        out[item[2]][2] += count
    return out


def told(item):
    inner = "; ".join(item[4]) if len(item) > 4 else ""
    return f"{item[0] + ' ' if item[0] else ''}{item[1]} {item[2]} {item[3]}[{inner}]"


def word(arguments):
    found_places, found = read(arguments.found, arguments.spans, arguments.label)
    gold_places, gold = read(arguments.gold, arguments.spans, arguments.label)
    if all(not item[0] for item in gold) and gold or all(not item[0] for item in found) and found:
        found, gold = without_document(found), without_document(gold)
    table = counts(found, gold)
    print(f"{'label':20} {'found':>8} {'gold':>8} {'both':>8}  precision  recall     F1")
    total = [sum(row[k] for row in table.values()) for k in range(3)]
    for label, row in sorted(table.items()) + ([("all", total)] if len(table) != 1 else []):
        print(f"{label:20} {row[0]:8,} {row[1]:8,} {row[2]:8,}  {rate(row[2], row[0]):>9}  {rate(row[2], row[1]):>6}  {rate(2 * row[2], row[0] + row[1]):>5}")
    listed("missing", gold - found, arguments.most)
    listed("too much", found - gold, arguments.most)
    if found == gold and found_places is not None and gold_places is not None and found_places != gold_places:
        print("the texts are equal, and places are not: a word stands twice in a sentence")
        return 1
    return 0 if found == gold else 1


def without_document(bag):
    out = collections.Counter()
    for item, count in bag.items():
        out[("",) + item[1:]] += count
    return out


def listed(what, bag, most):
    rows = sorted(bag.elements(), key=lambda item: (item[0], int(item[1]) if conllu.is_number(item[1]) else 0, item[2:]))
    if rows:
        print(f"{what}: {of(len(rows), 'mention')}")
    for item in rows[:most]:
        print("  " + told(item))
    if len(rows) > most:
        print(f"  and {len(rows) - most:,} more (--most N)")
