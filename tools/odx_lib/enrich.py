"""`odx enrich`: what the program does not read, written into columns that it reads."""
import re
import sys

from . import conllu
from .told import Told, note, of, place

NEGATIVE = {"not", "n't", "never", "no", "neither", "nor", "nobody", "nothing", "none"}
HEADED = ("obl", "nmod")


class Counts:
    """What was written, for the note at the end."""

    def __init__(self):
        self.tokens = self.sentences = self.changed = self.kept = 0
        self.several = 0


def base(relation):
    return relation.split(":")[0]


class Rows:
    """A sentence's lines as they stand: words as columns, all others as text."""

    def __init__(self, lines, first_line, path):
        self.lines = lines
        self.words = {}
        for number, raw in enumerate(lines):
            text = raw.rstrip(b"\r\n")
            if text.startswith(b"#") or not text:
                continue
            try:
                columns = text.decode().split("\t")
            except UnicodeDecodeError:
                raise Told(f"{place(path, first_line + number)}: these bytes are not UTF-8; save the file as UTF-8")
            if len(columns) != 10:
                raise Told(f"{place(path, first_line + number)}: the line has {of(len(columns), 'column')} between tabs, and must have 10")
            if conllu.is_number(columns[0]):
                self.words[columns[0]] = (number, columns)

    def under(self, number, *relations):
        return [c for _, c in self.words.values() if c[6] == number and (not relations or base(c[7]) in relations)]

    def write(self, out):
        rows = list(self.lines)
        for number, columns in self.words.values():
            end = b"\r\n" if rows[number].endswith(b"\r\n") else b"\n"
            rows[number] = "\t".join(columns).encode() + end
        out.write(b"".join(rows))


def set_misc(columns, key, value, counts, replace=False):
    """Puts key=value into MISC; an item that is there stays, but for `replace`."""
    items = [] if columns[9] in ("_", "") else columns[9].split("|")
    if any(x.partition("=")[0] == key for x in items):
        if not replace:
            counts.kept += 1
            return
        items = [x for x in items if x.partition("=")[0] != key]
    columns[9] = "|".join(items + [f"{key}={value}"])
    counts.changed += 1


def add_case(rows, counts):
    """obl and nmod with the lemma of their preposition: obl:from. A subtype that stands there stays."""
    new = {}
    for number, (_, columns) in rows.words.items():
        case = rows.under(number, "case") if columns[7] in HEADED else []
        if case:
            fixed = [x[2] for x in rows.under(case[0][0], "fixed")]
            new[number] = columns[7] + ":" + "_".join([case[0][2].lower()] + [x.lower() for x in fixed])
    for number, relation in new.items():
        rows.words[number][1][7] = relation
        counts.changed += 1


def add_enhanced(rows, counts):
    """The enhanced relation of the same head in place of DEPREL; other heads have no place."""
    for _, columns in rows.words.values():
        own, others = [], 0
        for item in columns[8].split("|") if columns[8] not in ("_", "") else []:
            head, colon, relation = item.partition(":")
            if colon and head == columns[6]:
                own.append(relation)
            elif colon:
                others += 1
        counts.several += others
        if own and columns[6] != "0" and own[0] != columns[7]:
            columns[7] = own[0]
            counts.changed += 1


def add_feats(rows, counts):
    """FEATS behind XPOS: VBD|Mood=Ind|Tense=Past."""
    for _, columns in rows.words.values():
        if columns[5] not in ("_", ""):
            columns[4] = ("" if columns[4] == "_" else columns[4]) + "|" + columns[5]
            counts.changed += 1


def add_negation(rows, counts, replace):
    """Chunk=neg at a word that has a negative dependent, or whose subject or object has one."""
    def negative(columns):
        return columns[2].lower() in NEGATIVE or columns[1].lower() in NEGATIVE or "Polarity=Neg" in columns[5].split("|")

    for number, (_, columns) in rows.words.items():
        direct = any(negative(x) for x in rows.under(number, "advmod", "det", "neg")) and columns[3] not in ("NOUN", "PROPN")
        through = any(negative(y) for x in rows.under(number, "nsubj", "obj") for y in rows.under(x[0], "det"))
        subject = any(x[1].lower() in NEGATIVE for x in rows.under(number, "nsubj", "obj"))
        if direct or through or subject:
            set_misc(columns, "Chunk", "neg", counts, replace)


def rename(rows, pairs, counts):
    """Another key of MISC as the one that is read; BIO letters before the value go."""
    for _, columns in rows.words.values():
        items = [] if columns[9] in ("_", "") else columns[9].split("|")
        for old, new in pairs:
            for item in items:
                key, equals, value = item.partition("=")
                value = re.sub(r"^[BILUES]-", "", value)
                if equals and key == old and value not in ("", "O", "_"):
                    set_misc(columns, new, value, counts)
                    break


class List:
    """A list of words or names: each line a name, or LABEL, a tab and a name; `#` begins a comment."""

    def __init__(self, path, label, lemmas):
        self.lemmas = lemmas
        self.first = {}
        try:
            with open(path, encoding="utf-8") as file:
                lines = file.read().split("\n")
        except UnicodeDecodeError:
            raise Told(f"{path}: the list is not UTF-8; save the file as UTF-8")
        except OSError as fault:
            raise Told(f"{path}: {fault.strerror}; a list has one name a line, or LABEL, a tab and a name")
        for number, text in enumerate(lines, 1):
            text = text.rstrip("\r")
            if not text.strip() or text.startswith("#"):
                continue
            front, tab, name = text.partition("\t")
            words = (name if tab else front).split()
            if tab and (not words or not re.fullmatch(r"[^\s|=]+", front)):
                raise Told(f"{place(path, number)}: a line is a name, or LABEL, a tab and a name")
            row = tuple(x.casefold() for x in words)
            self.first.setdefault(row[0], []).append((row, front if tab else label))
        for rows in self.first.values():
            rows.sort(key=lambda x: -len(x[0]))

    def mark(self, rows, key, counts, replace):
        """Writes the label at each token of the longest name that stands there."""
        words = [columns for _, columns in rows.words.values()]
        texts = [(c[2] if self.lemmas and c[2] not in ("_", "") else c[1]).casefold() for c in words]
        at = 0
        while at < len(words):
            for row, label in self.first.get(texts[at], ()):
                if tuple(texts[at : at + len(row)]) == row:
                    for columns in words[at : at + len(row)]:
                        set_misc(columns, key, label, counts, replace)
                    at += len(row) - 1
                    break
            at += 1


def pairs_of(texts):
    out = []
    for text in texts or ():
        old, equals, new = text.partition("=")
        if not equals or new not in ("Entity", "Chunk") or not old:
            raise Told(f"--rename {text}: it is OLD=Entity or OLD=Chunk, as in --rename NER=Entity")
        out.append((old, new))
    return out


def word(arguments):
    pairs = pairs_of(arguments.rename)
    lists = [List(path, arguments.label, arguments.lemmas) for path in arguments.list or ()]
    if not (pairs or lists or arguments.case or arguments.enhanced or arguments.feats or arguments.negation):
        raise Told("nothing is asked for: --case, --enhanced, --feats, --negation, --rename OLD=NEW or --list FILE")
    counts = Counts()
    for path in arguments.texts or ["-"]:
        file = sys.stdin.buffer if path == "-" else conllu.opened(path)
        for line, _, lines in conllu.sentences_of(file):
            rows = Rows(lines, line, "standard input" if path == "-" else path)
            counts.sentences += bool(rows.words)
            counts.tokens += len(rows.words)
            if arguments.enhanced:
                add_enhanced(rows, counts)
            if arguments.case:
                add_case(rows, counts)
            if arguments.negation:
                add_negation(rows, counts, arguments.replace)
            rename(rows, pairs, counts)
            for words in lists:
                words.mark(rows, "Chunk" if arguments.chunk else "Entity", counts, arguments.replace)
            if arguments.feats:
                add_feats(rows, counts)
            rows.write(sys.stdout.buffer)
    sys.stdout.buffer.flush()
    note(f"{of(counts.sentences, 'sentence')}, {of(counts.changed, 'value')} written")
    if counts.kept:
        note(f"{of(counts.kept, 'value')} left as it was, since the key was there (--replace)")
    if counts.several:
        note(f"{of(counts.several, 'further head')} of DEPS left out: a token has one head")
    return 0
