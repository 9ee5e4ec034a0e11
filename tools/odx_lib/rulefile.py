"""Rule files and queries, read with the place of each character, so that a fault is shown where the user wrote it.

The program is the judge of what a rule file is. This reader takes what it can of any file, and refuses none.
"""
import os
import re

from .told import Told

KEYS = ("name", "label", "type", "priority", "pattern")
VARIABLE = re.compile(r"\$\{([A-Za-z_][A-Za-z0-9_]*)\}")


class Placed:
    """A text, and for each of its characters and its end the place in the file: (line, column, variable or None)."""

    def __init__(self, text="", places=()):
        self.text, self.places = text, list(places)

    def add(self, text, line, column):
        self.text += text
        self.places += [(line, column + number, None) for number in range(len(text))]

    def cut(self, start, end):
        return Placed(self.text[start:end], self.places[start:end])

    def place(self, at):
        """The place of the character, or behind the last one."""
        if at < len(self.places):
            return self.places[at]
        if not self.places:
            return 1, 0, None
        line, column, variable = self.places[-1]
        return line, column + 1, variable

    def at_byte(self, byte):
        """The character at that byte of the text in UTF-8."""
        return len(self.text.encode()[:byte].decode("utf-8", "ignore"))


class Rule:
    """A rule: its keys as texts with places, and the line where it begins."""

    def __init__(self, line):
        self.line = line
        self.keys = {}
        self.key_lines = {}

    def text(self, key, otherwise=""):
        return self.keys[key].text if key in self.keys else otherwise

    @property
    def name(self):
        return self.text("name", "?")

    @property
    def label(self):
        return self.text("label", "?")

    @property
    def is_event(self):
        return self.text("type") == "event"

    @property
    def first(self):
        """The first round in which the rule runs."""
        found = re.match(r"[0-9]+", self.text("priority", "1+"))
        return int(found.group()) if found else 1

    @property
    def last(self):
        priority = self.text("priority", "1+")
        numbers = re.findall(r"[0-9]+", priority)
        return 100 if priority.endswith("+") or not numbers else int(numbers[-1])


class Grammar:
    """A rule file or a query as the user gave it."""

    def __init__(self, path, source):
        self.path = path
        self.source = source
        self.lines = source.split("\n")
        self.variables = {}
        self.rules = []

    @property
    def is_query(self):
        return self.path is None

    @property
    def shown(self):
        return self.path or "the query"

    def expanded(self, rule):
        """The rule's pattern with its variables replaced, each character with its place."""
        return self.replaced(rule.keys.get("pattern", Placed()), ())

    def replaced(self, placed, open_ones):
        out, end = Placed(), 0
        for found in VARIABLE.finditer(placed.text):
            name = found.group(1)
            if name not in self.variables or name in open_ones:
                continue
            before = placed.cut(end, found.start())
            out.text += before.text
            out.places += before.places
            inner = self.replaced(self.variables[name], open_ones + (name,))
            out.text += inner.text
            out.places += [(line, column, within or name) for line, column, within in inner.places]
            end = found.end()
        rest = placed.cut(end, len(placed.text))
        out.text += rest.text
        out.places += rest.places
        return out

    def rule(self, number):
        """The rule with that number, from 1."""
        return self.rules[number - 1] if 0 < number <= len(self.rules) else None


def read_grammar(given):
    """The grammar of a path, or of a query where the text names no file."""
    if os.path.isfile(given):
        return read_file(given)
    if re.search(r"\.(ya?ml|conllu?|script)$", given):
        raise Told(f"{given}: there is no such file")
    return query(given)


def query(pattern):
    pattern = pattern.strip()
    grammar = Grammar(None, pattern)
    rule = Rule(1)
    for key, text in (("name", "query"), ("label", "Query"), ("type", "basic"), ("priority", "1+")):
        rule.keys[key] = Placed(text, [(1, 0, None)] * len(text))
    body = Placed()
    body.add(pattern, 1, 0)
    rule.keys["pattern"] = body
    grammar.rules.append(rule)
    return grammar


def read_file(path):
    with open(path, "rb") as file:
        data = file.read()
    if data[:2] in (b"\xff\xfe", b"\xfe\xff"):
        raise Told(f"{path}:1: this is UTF-16; save the file as UTF-8")
    data = data[3:] if data.startswith(b"\xef\xbb\xbf") else data
    try:
        source = data.decode()
    except UnicodeDecodeError as fault:
        line = data[: fault.start].count(b"\n") + 1
        raise Told(f"{path}:{line}: these bytes are not UTF-8; save the file as UTF-8")
    grammar = Grammar(path, source)
    read_lines(grammar)
    return grammar


ENTRY = re.compile(r"( *)(- +)?([A-Za-z_][A-Za-z0-9_]*):(?: +(.*))?$")


def read_lines(grammar):
    section, number = None, 0
    lines = [line[:-1] if line.endswith("\r") else line for line in grammar.lines]
    while number < len(lines):
        line = lines[number]
        number += 1
        if re.match(r"(vars|rules):\s*(#.*)?$", line):
            section = line.split(":")[0]
            continue
        found = ENTRY.match(line)
        if not found or line.lstrip().startswith("#"):
            continue
        indent, dash, key, value = found.groups()
        if dash and section == "rules":
            grammar.rules.append(Rule(number))
        at, column = number, len(line) - len(value or "")
        placed, number = scalar(lines, number, value or "", column, len(indent) + len(dash or ""))
        if section == "vars":
            grammar.variables[key] = placed
        elif grammar.rules:
            grammar.rules[-1].keys.setdefault(key, placed)
            grammar.rules[-1].key_lines.setdefault(key, at)


def scalar(lines, number, value, column, indent):
    """A value behind its key on line `number`, and the number of lines read with it."""
    if value.rstrip() in ("|", "|-"):
        return literal(lines, number, indent, value.rstrip() == "|")
    placed = Placed()
    if value.startswith('"'):
        at = 1
        while at < len(value) and value[at] != '"':
            step = 2 if value[at] == "\\" and at + 1 < len(value) else 1
            text = {"n": "\n", "t": "\t"}.get(value[at + 1], value[at + 1]) if step == 2 else value[at]
            placed.add(text, number, column + at)
            at += step
        return placed, number
    plain = re.sub(r"[ \t]+#.*$", "", value).rstrip()
    placed.add(plain, number, column)
    return placed, number


def literal(lines, number, indent, feed):
    body, own = [], None
    while number < len(lines):
        line = lines[number]
        blanks = len(line) - len(line.lstrip(" "))
        if line.strip():
            own = blanks if own is None else own
            if blanks <= indent or blanks < own:
                break
        body.append((number + 1, line))
        number += 1
    while body and not body[-1][1].strip():
        body.pop()
    placed = Placed()
    for at, (line_number, line) in enumerate(body):
        placed.add(line[own or 0 :], line_number, own or 0)
        if feed or at + 1 < len(body):
            placed.add("\n", line_number, len(line))
    return placed, number
