"""The lexemes of patterns, and what a pattern asks: fields with values, relations, labels; and how it can be cut."""
import re

WORD = re.compile(r"[A-Za-z0-9_\u0080-\U0010ffff][A-Za-z0-9_:\-\u0080-\U0010ffff]*")
FORMS = [
    ("quoted", re.compile(r'"(?:\\.|[^"\\])*"|\'(?:\\.|[^\'\\])*\'', re.S)),
    ("regex", re.compile(r"/(?:\\.|[^/\\])*/", re.S)),
    ("open", re.compile(r"\(\?<[A-Za-z_][A-Za-z0-9_]*>")),
    ("look", re.compile(r"\(\?<?[=!]")),
    ("range", re.compile(r"\{[0-9]*(?:,[0-9]*)?\}")),
    ("word", WORD),
    ("arrow", re.compile(r">>|<<|>|<")),
    ("sign", re.compile(r"[\[\]()&|!=@?*+^$]")),
]
FIELDS = ("word", "norm", "lemma", "upos", "tag", "entity", "chunk", "incoming", "outgoing")
VALUES = ("word", "quoted", "regex")


class Lexeme:
    """A lexeme with its kind, its text and where it stands."""

    __slots__ = ("kind", "text", "start", "end")

    def __init__(self, kind, text, start):
        self.kind, self.text, self.start, self.end = kind, text, start, start + len(text)

    @property
    def value(self):
        """The text that a quoted value or an expression stands for."""
        if self.kind == "quoted":
            return re.sub(r"\\(.)", r"\1", self.text[1:-1], flags=re.S)
        if self.kind == "regex":
            return self.text[1:-1].replace("\\/", "/")
        return self.text


def lexemes(text, start=0):
    """The lexemes of a text up to the first place where none stands."""
    out, at = [], start
    while at < len(text):
        if text[at].isspace():
            at += 1
            continue
        for kind, form in FORMS:
            found = form.match(text, at)
            if found:
                out.append(Lexeme(kind, found.group(), at))
                at = found.end()
                break
        else:
            break
    return out


EVENT_LINE = re.compile(r"\s*(\w+)\s*(?::\s*(\w+))?\s*([?*+]?)\s*$")


class Line:
    """A line of an event pattern: name, label, quantifier, the text behind its `=` and where that begins."""

    def __init__(self, name, label, quantifier, body, start, whole):
        self.name, self.label, self.quantifier = name, label, quantifier
        self.body, self.start, self.whole = body, start, whole


def event_lines(text):
    """The lines of an event pattern that can be read, the trigger's first."""
    at, out = 0, []
    for line in text.split("\n"):
        front, equals, body = line.partition("=")
        found = EVENT_LINE.match(front)
        if equals and found:
            name, label, quantifier = found.groups()
            out.append(Line(name, label, quantifier, body, at + len(front) + 1, line.strip()))
        at += len(line) + 1
    return out


class Asked:
    """A value that a pattern asks for: of which field (or `relation`, `label`), the lexeme, and its place."""

    def __init__(self, field, lexeme):
        self.field, self.lexeme, self.at = field, lexeme, lexeme.start


def asked(text, is_event):
    """What a pattern asks, in the order of its text."""
    if not is_event:
        return asked_in(lexemes(text))
    out = []
    for line in event_lines(text):
        shift = [Lexeme(x.kind, x.text, x.start + line.start) for x in lexemes(line.body)]
        if line.label:
            at = text.index(line.label, text.rfind("\n", 0, line.start) + 1)
            out.append(Asked("label", Lexeme("word", line.label, at)))
        out += asked_in(shift)
    return out


def asked_in(row):
    out, depth, number = [], 0, 0
    while number < len(row):
        lexeme = row[number]
        following = row[number + 1] if number + 1 < len(row) else None
        if lexeme.text == "[" and lexeme.kind == "sign":
            depth += 1
        elif lexeme.text == "]" and lexeme.kind == "sign":
            depth = max(0, depth - 1)
        elif depth and lexeme.kind == "word" and following and following.text == "=" and number + 2 < len(row):
            value = row[number + 2]
            if lexeme.text in FIELDS and value.kind in VALUES:
                field = "relation" if lexeme.text in ("incoming", "outgoing") else lexeme.text
                out.append(Asked(field, value))
            number += 2
        elif not depth and lexeme.kind == "arrow" and len(lexeme.text) == 1 and following and following.kind in VALUES:
            out.append(Asked("relation", following))
            number += 1
        elif not depth and lexeme.text == "@" and following and following.kind == "word":
            out.append(Asked("label", following))
            number += 1
        elif not depth and lexeme.kind in VALUES:
            out.append(Asked("norm", lexeme))
        number += 1
    return out


def expressions(text, is_event):
    """The regular expressions of a pattern with their places, in the order of its text."""
    if is_event:
        rows = [(line.start, lexemes(line.body)) for line in event_lines(text)]
    else:
        rows = [(0, lexemes(text))]
    return [(x.value, start + x.start) for start, row in rows for x in row if x.kind == "regex"]


def closes(row, number):
    """The number behind the bracket that is opened at `number`."""
    depth = 0
    while number < len(row):
        lexeme = row[number]
        if lexeme.kind in ("open", "look") or lexeme.kind == "sign" and lexeme.text in "([":
            depth += 1
        elif lexeme.kind == "sign" and lexeme.text in ")]":
            depth -= 1
        number += 1
        if depth == 0:
            break
    return number


def is_quantifier(lexeme):
    return lexeme.kind == "range" or lexeme.kind == "sign" and lexeme.text in "?*+"


class Part:
    """A part of a pattern at its top: its text, where it stands, and whether it is a step of a path."""

    def __init__(self, text, start, end, step):
        self.text, self.start, self.end, self.step = text, start, end, step


def parts(text, path=False):
    """The alternatives at the top of a pattern, each as its parts. Of a path every part is a step."""
    row, number, out, row_of_parts = lexemes(text), 0, [], []
    while number < len(row):
        lexeme, begin = row[number], number
        if lexeme.kind == "sign" and lexeme.text == "|":
            out.append(row_of_parts)
            row_of_parts, number = [], number + 1
            continue
        step = path
        if lexeme.kind in ("open", "look") or lexeme.kind == "sign" and lexeme.text in "([":
            number = closes(row, number)
            inner = [x for x in row[begin:number] if x.text != "("]
            step = path or bool(inner) and inner[0].kind == "arrow"
        elif lexeme.kind == "arrow":
            step = True
            number += 2 if len(lexeme.text) == 1 else 1
        elif lexeme.text == "@":
            number += 2
        else:
            number += 1
        while number < len(row) and is_quantifier(row[number]):
            number += 1
        last = row[min(number, len(row)) - 1]
        row_of_parts.append(Part(text[lexeme.start : last.end], lexeme.start, last.end, step))
    out.append(row_of_parts)
    return out
