"""`odx run`: texts and a grammar to mentions, in one go."""
import concurrent.futures
import contextlib
import os
import shutil
import sys
import tempfile

from . import answers, check, program, refusals, script, show, vocabulary
from .told import note

LOOKED_AT = 8 << 20


def word(arguments, grammars, paths):
    binary = program.needed(arguments.program)
    with tempfile.TemporaryDirectory(prefix="odx.") as folder:
        runs = made(binary, grammars, paths, arguments, folder)
        faults = [x for x in runs if x.status > 1]
        if faults:
            names = [script.name_of(number) for number in range(len(grammars))]
            note(*refusals.Reader(grammars, names).lines(faults[0].diagnostic))
            return faults[0].status
        outputs = [x.output for x in runs]
        if arguments.keep:
            keep(outputs, arguments.keep)
        status = show.show(arguments, outputs, paths, grammars)
        if status == 0:
            note(*silent(grammars, outputs, paths, arguments))
        return status


def made(binary, grammars, paths, arguments, folder):
    """The runs of the program, one for each script."""
    prefix = os.path.join(folder, "part")
    size = sum(os.path.getsize(path) for path in paths)
    count = arguments.shards or max(1, -(-size // (48 << 20)))
    scripts = [path for path, _ in script.shards(grammars, paths, arguments.rounds, count, prefix)]
    with concurrent.futures.ThreadPoolExecutor(max(1, arguments.jobs)) as pool:
        return list(pool.map(lambda path: program.run(binary, path, folder), scripts))


def keep(outputs, path):
    with contextlib.ExitStack() as stack:
        out = sys.stdout.buffer if path == "-" else stack.enter_context(open(path, "wb"))
        for output in outputs:
            with open(output, "rb") as file:
                shutil.copyfileobj(file, out)


def silent(grammars, outputs, paths, arguments):
    """Rules that found nothing, with the warnings that may say why."""
    found = {mention["rule"] for mention in answers.mentions(outputs)}
    out = []
    size = sum(os.path.getsize(path) for path in paths)
    words = None
    for grammar in grammars:
        rules = [rule for rule in grammar.rules if rule.name not in found]
        if rules and size <= LOOKED_AT:
            words = words or vocabulary.Vocabulary(paths)
        said = check.warnings(grammar, words if rules else None, arguments.rounds)
        if said or rules:
            out += said + check.silent_lines(grammar, rules, paths)
        if rules and size > LOOKED_AT:
            out.append("`odx check` compares the grammar with the words of the texts")
    return out
