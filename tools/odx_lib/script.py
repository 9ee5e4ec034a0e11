"""`odx script`: grammars and texts as scripts for the program."""
import io
import os
import sys

from . import conllu
from .told import Told, note, of

MOST_SCRIPT = 64 << 20
MOST_DOCUMENTS = 128 << 20
MOST_ROUNDS = 100
HEADS = 16


class Built:
    """A script in the making: heads first, then documents, then the sessions."""

    def __init__(self, out, grammars, rounds):
        self.out, self.grammars, self.rounds = out, grammars, rounds
        self.size = self.documents = 0
        for number, grammar in enumerate(grammars):
            self.write(head(grammar, name_of(number)))
        self.write(b"client\n")

    def write(self, data):
        self.out.write(data)
        self.size += len(data)

    def document(self, piece):
        count = piece.text.count(b"\n")
        if self.size + len(piece.text) > MOST_SCRIPT - 4096:
            raise Told(
                f"{conllu.place(piece.path, piece.line)}: with this text the script has more than 64 MiB, which is the most",
                "  say --shards N for several scripts, or give fewer texts",
            )
        self.write(b"doc %s %d\n" % (piece.name.encode(), count))
        self.write(piece.text)
        self.documents += 1

    def end(self):
        for number in range(len(self.grammars)):
            session = session_of(number)
            self.write(f"open {session} {name_of(number)} {self.rounds}\nrun {session}\nprint {session}\n".encode())


def name_of(number):
    return f"g{number + 1}"


def session_of(number):
    return f"s{number + 1}"


def head(grammar, name):
    """The lines of a script that give a grammar."""
    text = grammar.source
    if grammar.is_query:
        if "\n" in text.strip() or "\r" in text:
            raise Told("the query has several lines; a query is one line, a rule file is a file")
        return f"query {name} {text.strip()}\n".encode()
    text = text if text.endswith("\n") or not text else text + "\n"
    count = text.count("\n")
    return f"grammar {name} {count}\n{text}".encode()


def write(out, grammars, paths, rounds):
    """One script with all texts."""
    built = Built(out, grammars, rounds)
    for piece in conllu.all_pieces(paths):
        built.document(piece)
    built.end()
    return built


class Shards:
    """Several scripts that share the documents: each goes to the script that has the fewest bytes."""

    def __init__(self, grammars, rounds, count, prefix):
        self.prefix = prefix
        self.paths = [f"{prefix}.{number + 1:0{len(str(count))}d}.script" for number in range(count)]
        try:
            os.makedirs(os.path.dirname(prefix) or ".", exist_ok=True)
            self.files = [open(path, "wb") for path in self.paths]
        except OSError as fault:
            raise Told(f"{fault.filename}: {fault.strerror}; --out names the beginning of the scripts' paths")
        self.built = [Built(file, grammars, rounds) for file in self.files]

    def fill(self, paths):
        try:
            for piece in conllu.all_pieces(paths):
                min(self.built, key=lambda built: built.size).document(piece)
            for built in self.built:
                built.end()
        finally:
            for file in self.files:
                file.close()


def shards(grammars, paths, rounds, count, prefix):
    made = Shards(grammars, rounds, count, prefix)
    made.fill(paths)
    for path, built in zip(made.paths, made.built):
        if built.documents == 0:
            os.remove(path)
    return [(path, built) for path, built in zip(made.paths, made.built) if built.documents]


def as_bytes(grammars, paths, rounds):
    out = io.BytesIO()
    write(out, grammars, paths, rounds)
    return out.getvalue()


def word(arguments, grammars, paths):
    """The word itself: a script to standard output, or scripts to files."""
    if arguments.shards:
        made = shards(grammars, paths, arguments.rounds, arguments.shards, arguments.out)
        for path, built in made:
            print(path)
        note(f"{of(len(made), 'script')}, {of(sum(built.documents for _, built in made), 'document')}")
        return 0
    built = write(sys.stdout.buffer, grammars, paths, arguments.rounds)
    sys.stdout.buffer.flush()
    note(f"{of(built.documents, 'document')}, {of(built.size, 'byte')}")
    return 0
