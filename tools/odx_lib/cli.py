"""The words of `odx`."""
import argparse
import os
import re
import signal
import sys
import tempfile

from . import check, compare, conllu, enrich, rulefile, run, script, scripts, show, why
from .told import Told, note

ABOUT = """From CoNLL-U files and a grammar to mentions that one can read.

  odx run GRAMMAR TEXT..      runs a grammar over texts and shows what it found
  odx check GRAMMAR [TEXT..]  what is wrong in a grammar, and what in it can find nothing
  odx why GRAMMAR RULE TEXT.. where a rule loses what it should find
  odx script GRAMMAR TEXT..   a script for the program, or several
  odx show OUTPUT.. --text TEXT..   what the program wrote, to be read, or for other programs
  odx compare FOUND GOLD      precision, recall, what is missing and what is too much
  odx enrich TEXT..           FEATS, enhanced relations, lists of words into columns that are read

A GRAMMAR is a rule file, or a query: '[lemma=buy] >obj (?<what>[])'. A TEXT is a file in CoNLL-U.
`odx WORD --help` tells more. Status 0: done; 1: something was refused, or is to be looked at; 2 and above: nothing was done.
"""


class Parser(argparse.ArgumentParser):
    def error(self, message):
        raise Told(f"{self.prog}: {message}", f"  {self.prog} --help tells what it takes")


def rounds(text):
    if not conllu.is_number(text) or not 1 <= int(text) <= script.MOST_ROUNDS:
        raise argparse.ArgumentTypeError(f"a session has 1 to {script.MOST_ROUNDS} rounds, and not {text}")
    return int(text)


def number(text):
    if not conllu.is_number(text) or int(text) < 1 or int(text) > 10000:
        raise argparse.ArgumentTypeError(f"this is a number from 1 to 10000, and not {text}")
    return int(text)


def add_grammar(parser, texts="+"):
    parser.add_argument("grammar", metavar="GRAMMAR", help="a rule file, or a query as one text between quotes")
    parser.add_argument("texts", metavar="TEXT", nargs=texts, help="files in CoNLL-U; - is standard input")
    parser.add_argument("--also", metavar="GRAMMAR", action="append", default=[], help="a further grammar, with a session of its own")
    parser.add_argument("--rounds", type=rounds, default=script.MOST_ROUNDS, metavar="N", help="at most so many rounds (100)")


def add_program(parser):
    parser.add_argument("--program", metavar="PATH", help="the program (else ODINSON, else the one that this repository builds)")


def add_forms(parser):
    group = parser.add_argument_group("what is shown, and how").add_mutually_exclusive_group()
    for name, text in (
        ("lines", "each mention in its sentence (the default)"), ("table", "place, label, text, arguments, between tabs"),
        ("csv", "a table with all columns"), ("list", "short lines, which `odx compare` reads"),
        ("json", "the program's lines of mentions"), ("counts", "how many, by label and rule"),
    ):
        group.add_argument(f"--{name}", dest="form", action="store_const", const=name, help=text)
    group.add_argument("--brat", metavar="FOLDER", help="files for brat: a .txt and a .ann for each document")
    group.add_argument("--html", metavar="FILE", help="one page with each sentence drawn: arcs, mentions, arguments")
    parser.set_defaults(form="lines")
    parser.add_argument("--label", metavar="L", action="append", help="mentions with this label alone (may stand again)")
    parser.add_argument("--rule", metavar="R", action="append", help="mentions of this rule alone")
    parser.add_argument("--longest", action="store_true", help="leave out what another mention of the same label contains")
    parser.add_argument("--all", action="store_true", help="with --html: sentences without mentions too")


def parser_of():
    parser = Parser(prog="odx", description=ABOUT, formatter_class=argparse.RawDescriptionHelpFormatter, usage="odx WORD ..")
    words = parser.add_subparsers(dest="word", metavar="WORD", parser_class=Parser)
    made = {}

    def add(name, text):
        made[name] = words.add_parser(name, help=text, description=text, prog=f"odx {name}")
        return made[name]

    one = add("script", "Makes a script: the grammar, the texts (cut at ends of sentences where they are above 1 MiB), one session, which is run and printed.")
    add_grammar(one)
    one.add_argument("--shards", type=number, metavar="N", help="N scripts that share the texts, written to files whose paths are printed")
    one.add_argument("--out", metavar="PREFIX", default="odx", help="with --shards: the scripts are PREFIX.1.script, .. (odx)")
    one = add("run", "Runs a grammar over texts, and shows what it found. What was refused, and rules that found nothing, are told on standard error.")
    add_grammar(one)
    add_program(one)
    add_forms(one)
    one.add_argument("--shards", type=number, metavar="N", help="N scripts, one after another (else as few as the texts allow)")
    one.add_argument("--jobs", type=number, default=1, metavar="N", help="so many of them at the same time (1)")
    one.add_argument("--keep", metavar="FILE", help="keep the program's output in this file")
    one = add("show", "Shows what the program wrote for scripts. Give the texts as they were given for the scripts, in the same order.")
    one.add_argument("outputs", metavar="OUTPUT", nargs="+", help="outputs of the program; - is standard input")
    one.add_argument("--text", metavar="TEXT", nargs="+", help="the texts, for context")
    add_forms(one)
    one = add("check", "Tells what is wrong in a grammar, at its line, and what in it can find nothing; with texts, what they do not have. A script is looked at too.")
    add_grammar(one, "*")
    add_program(one)
    one = add("why", "Runs a rule cut down: its trigger alone, each argument alone, with its label and without, and each path step by step.")
    one.add_argument("grammar", metavar="GRAMMAR", help="a rule file, or a query")
    one.add_argument("texts", metavar="RULE TEXT", nargs="+", help="the rule's name (not for a query), then files in CoNLL-U")
    one.add_argument("--rounds", type=rounds, default=script.MOST_ROUNDS, metavar="N", help="at most so many rounds (100)")
    add_program(one)
    one = add("enrich", "Writes texts to standard output with more in the columns that the program reads.")
    one.add_argument("texts", metavar="TEXT", nargs="*", help="files in CoNLL-U (else standard input)")
    one.add_argument("--case", action="store_true", help="obl and nmod with their preposition: obl:from, nmod:of")
    one.add_argument("--enhanced", action="store_true", help="the relation of DEPS for the same head in place of DEPREL")
    one.add_argument("--feats", action="store_true", help="FEATS behind XPOS: VBD|Mood=Ind, for tag=/VBD.*Mood=Ind.*/")
    one.add_argument("--negation", action="store_true", help="Chunk=neg at a word with a negative dependent, subject or object")
    one.add_argument("--rename", metavar="OLD=NEW", action="append", help="another key of MISC as Entity or Chunk: NER=Entity; B- and I- go")
    one.add_argument("--list", metavar="FILE", action="append", help="names, one a line, or LABEL, a tab and a name: Entity=LABEL")
    one.add_argument("--label", metavar="L", default="LIST", help="with --list: the label of names without one (LIST)")
    one.add_argument("--lemmas", action="store_true", help="with --list: compare lemmas, not words; capitals do not matter")
    one.add_argument("--chunk", action="store_true", help="with --list: write Chunk= in place of Entity=")
    one.add_argument("--replace", action="store_true", help="write over an Entity= or Chunk= that is there")
    one = add("compare", "Compares two outputs, or an output with what should be found: program's lines, `show --csv` or `show --list`.")
    one.add_argument("found", metavar="FOUND", help="what was found")
    one.add_argument("gold", metavar="GOLD", help="what should be found, or what another grammar found")
    one.add_argument("--label", metavar="L", action="append", help="this label alone (may stand again)")
    one.add_argument("--spans", action="store_true", help="compare label and text, without arguments")
    one.add_argument("--most", type=number, default=20, metavar="N", help="list at most so many (20)")
    return parser


def texts_of(arguments, folder):
    """The paths of the texts, standard input kept in a file; each can be read."""
    paths = [conllu.stored(path, folder) for path in arguments.texts]
    for path, given in zip(paths, arguments.texts):
        if rulefile_like(given):
            raise Told(f"{given}: this is a rule file in the place of a text; a further grammar is --also {given}")
        conllu.opened(path).close()
    return paths


def rulefile_like(path):
    return bool(re.search(r"\.ya?ml$", path))


def with_grammar(arguments):
    """The words that take a grammar and texts."""
    if arguments.word == "check" and scripts.is_script(arguments.grammar):
        return scripts.word(arguments, arguments.grammar)
    if re.search(r"\.conllu?$", arguments.grammar):
        raise Told(f"{arguments.grammar}: this is a text in the place of the grammar: odx {arguments.word} GRAMMAR TEXT..")
    grammar = rulefile.read_grammar(arguments.grammar)
    name = None
    if arguments.word == "why" and not grammar.is_query:
        name = arguments.texts.pop(0)
        if not arguments.texts or os.path.isfile(name):
            raise Told("odx why GRAMMAR RULE TEXT..: the rule's name stands before the texts, and at least one text behind it")
    with tempfile.TemporaryDirectory(prefix="odx.") as folder:
        paths = texts_of(arguments, folder)
        if arguments.word == "why":
            return why.word(arguments, grammar, name or "query", paths)
        grammars = [grammar] + [rulefile.read_grammar(x) for x in arguments.also]
        if len(grammars) > script.HEADS:
            raise Told(f"a script has at most {script.HEADS} grammars, and these are {len(grammars)}")
        return {"script": script.word, "run": run.word, "check": check.word}[arguments.word](arguments, grammars, paths)


def main(words):
    if hasattr(signal, "SIGPIPE"):
        signal.signal(signal.SIGPIPE, signal.SIG_DFL)
    for stream in (sys.stdout, sys.stderr):
        stream.reconfigure(encoding="utf-8", errors="replace")
    try:
        arguments = parser_of().parse_args(words)
        if not arguments.word:
            print(ABOUT, end="")
            return 2
        alone = {"show": show.word, "enrich": enrich.word, "compare": compare.word}
        return alone[arguments.word](arguments) if arguments.word in alone else with_grammar(arguments)
    except Told as told:
        note(str(told))
        return told.status
    except KeyboardInterrupt:
        note("stopped")
        return 130
    except OSError as fault:
        note(f"{fault.filename or 'a file'}: {fault.strerror}")
        return 2
    except MemoryError:
        note("out of memory: give fewer texts, or say --shards")
        return 2
