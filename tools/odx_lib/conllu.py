"""Texts in CoNLL-U: cut into documents for a script, and sentences found again by document and number.

The lines are passed on as they stand. What is wrong with them the program says, and `refusals` shows where.
"""
import array
import collections
import os
import re
import sys

from .told import Told, place

MOST_BYTES = 1 << 20
MOST_NAME = 64
BOM = b"\xef\xbb\xbf"
UTF16 = (b"\xff\xfe", b"\xfe\xff")


class Piece:
    """A document of a script: its name, the file and the line where it begins, its bytes."""

    def __init__(self, name, path, line, offset, text):
        self.name, self.path, self.line, self.offset, self.text = name, path, line, offset, text


class Names:
    """Names of documents from names of files. The same files in the same order get the same names."""

    def __init__(self):
        self.taken = set()

    def new(self, path, number):
        base = os.path.basename(path)
        base = re.sub(r"\.conllu?$", "", base) or base
        stem = re.sub(r"[^A-Za-z0-9_.-]", "_", base)[: MOST_NAME - 14] or "text"
        ending = "" if number == 1 else f".{number}"
        name, again = stem + ending, 2
        while name in self.taken:
            name, again = f"{stem}{ending}-{again}", again + 1
        self.taken.add(name)
        return name


def opened(path):
    """A file of texts, open for its bytes."""
    try:
        if os.path.isdir(path):
            inside = os.path.join(path, "*.conllu")
            raise Told(f"{path}: this is a folder; name its files, as in {inside}")
        return open(path, "rb")
    except OSError as fault:
        raise Told(f"{path}: {fault.strerror}; a text is a file in CoNLL-U")


def stored(path, folder):
    """A path as it is, or standard input (`-`) kept in a file of the folder, since texts are read twice."""
    if path != "-":
        return path
    kept = os.path.join(folder, "stdin.conllu")
    with open(kept, "wb") as file:
        for block in iter(lambda: sys.stdin.buffer.read(1 << 20), b""):
            file.write(block)
    return kept


def sentences_of(file):
    """The runs of lines between empty lines, each with its end: (first line, offset, lines)."""
    line = offset = 0
    begin_line, begin, lines = 1, 0, []
    for raw in file:
        line += 1
        if line == 1 and raw.startswith(BOM):
            raw, offset, begin = raw[3:], 3, 3
        lines.append(raw)
        offset += len(raw)
        if raw in (b"\n", b"\r\n"):
            yield begin_line, begin, lines
            begin_line, begin, lines = line + 1, offset, []
    if lines:
        yield begin_line, begin, lines


def pieces(path, names):
    """The documents that a file gives: cut at ends of sentences where it is longer than a document may be."""
    with opened(path) as file:
        if file.read(2) in UTF16:
            raise Told(f"{path}:1: this is UTF-16; save the file as UTF-8")
        file.seek(0)
        count, size, parts, first = 0, 0, [], (1, 0)
        for line, offset, lines in sentences_of(file):
            text = b"".join(lines)
            if parts and size + len(text) + 1 > MOST_BYTES:
                count += 1
                yield Piece(names.new(path, count), path, first[0], first[1], ended(b"".join(parts)))
                size, parts, first = 0, [], (line, offset)
            elif not parts:
                first = (line, offset)
            parts.append(text)
            size += len(text)
        if parts or count == 0:
            yield Piece(names.new(path, count + 1), path, first[0], first[1], ended(b"".join(parts)))


def ended(text):
    """The bytes with a line feed at their end, without which the next line of a script would stick to them."""
    return text if not text or text.endswith(b"\n") else text + b"\n"


def lines_of(text):
    """The lines with their ends. Only a line feed ends a line."""
    return re.findall(rb"[^\n]*\n|[^\n]+", text)


def all_pieces(paths):
    """The documents of several files, in order."""
    names = Names()
    for path in paths:
        yield from pieces(path, names)


def is_number(text):
    return text.isascii() and text.isdigit()


class Token:
    """A word of a sentence: its columns, the line of its file, and where it stands in the sentence's text."""

    __slots__ = ("columns", "line", "begin", "end")

    def __init__(self, columns, line):
        self.columns, self.line = columns, line
        self.begin = self.end = 0

    form = property(lambda self: self.columns[1])
    lemma = property(lambda self: self.columns[2])
    upos = property(lambda self: self.columns[3])
    tag = property(lambda self: self.columns[4])
    relation = property(lambda self: self.columns[7])

    @property
    def head(self):
        """The number of its head from 0, or -1."""
        value = self.columns[6]
        return int(value) - 1 if is_number(value) else -1

    def misc(self, key):
        """The value of the first item of MISC with the key, or None."""
        for item in self.columns[9].split("|"):
            name, equals, value = item.partition("=")
            if equals and name == key:
                return value
        return None


class Sentence:
    """The words of a sentence with its `sent_id`, the line where it begins, and its text as it was written."""

    def __init__(self, tokens, sent_id, line, ranges):
        self.tokens, self.sent_id, self.line = tokens, sent_id, line
        self.text = written(tokens, ranges)

    def words(self, start, end):
        return " ".join(token.form for token in self.tokens[start:end])

    def span(self, start, end):
        """The characters from the first of these words to the last, as places in `text`."""
        if start >= end or end > len(self.tokens):
            here = self.tokens[start].begin if start < len(self.tokens) else len(self.text)
            return here, here
        return self.tokens[start].begin, self.tokens[end - 1].end


def written(tokens, ranges):
    """The sentence as it was written: no space after `SpaceAfter=No`, and contracted words in place of their parts."""
    out, size, number = [], 0, 0
    while number < len(tokens):
        last, form, misc = ranges.get(number, (number, None, None))
        last = min(last, len(tokens) - 1)
        form = tokens[number].form if form is None else form
        misc = tokens[last].columns[9] if misc is None else misc
        for token in tokens[number : last + 1]:
            token.begin, token.end = size, size + len(form)
        out.append(form)
        size += len(form)
        number = last + 1
        if "SpaceAfter=No" not in misc.split("|") and number < len(tokens):
            out.append(" ")
            size += 1
    return "".join(out)


def parsed(lines, first_line):
    """The sentence that the lines are, or None where they have no word. Lines of another form are left out."""
    tokens, ranges, sent_id = [], {}, None
    for number, raw in enumerate(lines):
        text = raw.decode("utf-8", "replace").rstrip("\n")
        text = text[:-1] if text.endswith("\r") else text
        if text.startswith("#"):
            found = re.match(r"#\s*sent_id\s*=\s*(.*)", text)
            sent_id = found.group(1).strip() if found else sent_id
            continue
        columns = text.split("\t")
        if len(columns) != 10:
            continue
        if is_number(columns[0]):
            tokens.append(Token(columns, first_line + number))
        elif re.fullmatch(r"[0-9]+-[0-9]+", columns[0]):
            begin, end = columns[0].split("-")
            ranges[int(begin) - 1] = (int(end) - 1, columns[1], columns[9])
    return Sentence(tokens, sent_id, first_line, ranges) if tokens else None


def all_sentences(paths):
    """Every sentence of the files: (name of its document, its number in it, the path, the sentence)."""
    for piece in all_pieces(paths):
        number, line, lines = 0, piece.line, []
        for raw in lines_of(piece.text) + [b"\n"]:
            lines.append(raw)
            if raw in (b"\n", b"\r\n"):
                sentence = parsed(lines, line)
                if sentence:
                    yield piece.name, number, piece.path, sentence
                    number += 1
                line, lines = line + len(lines), []


class Texts:
    """Sentences by document and number. Of a file only the places of its sentences are kept, and those read last."""

    KEPT = 4096

    def __init__(self, paths):
        self.found = {}
        self.files = {}
        self.recent = collections.OrderedDict()
        self.paths = list(paths)
        for piece in all_pieces(paths):
            offsets, lines = array.array("Q"), array.array("L")
            offset, line, begin, begin_line, words = piece.offset, piece.line, piece.offset, piece.line, False
            for raw in lines_of(piece.text) + [b"\n"]:
                offset, line = offset + len(raw), line + 1
                if raw in (b"\n", b"\r\n"):
                    if words:
                        offsets.append(begin)
                        lines.append(begin_line)
                    begin, begin_line, words = offset, line, False
                elif not words and raw[:1].isdigit():
                    words = raw.split(b"\t", 1)[0].isdigit()
            self.found[piece.name] = (piece.path, offsets, lines)

    def __contains__(self, document):
        return document in self.found

    def path(self, document):
        return self.found[document][0]

    def count(self, document):
        return len(self.found[document][1])

    def documents(self):
        return list(self.found)

    def sentence(self, document, number):
        """The sentence, or None where the texts have none of that document and number."""
        key = (document, number)
        if key in self.recent:
            self.recent.move_to_end(key)
            return self.recent[key]
        if document not in self.found:
            return None
        path, offsets, lines = self.found[document]
        if number >= len(offsets):
            return None
        file = self.file(path)
        file.seek(offsets[number])
        rows = []
        for raw in file:
            if raw in (b"\n", b"\r\n"):
                break
            rows.append(raw)
        sentence = parsed(rows, lines[number]) or Sentence([], None, lines[number], {})
        self.recent[key] = sentence
        if len(self.recent) > self.KEPT:
            self.recent.popitem(last=False)
        return sentence

    def file(self, path):
        if path not in self.files:
            if len(self.files) >= 32:
                self.files.pop(next(iter(self.files))).close()
            self.files[path] = opened(path)
        return self.files[path]

    def where(self, document, number):
        """FILE:LINE of a sentence."""
        path, _, lines = self.found[document]
        return place(path, lines[number] if number < len(lines) else None)
