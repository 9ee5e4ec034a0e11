"""Rule files, texts, scripts and outputs with signs lost, doubled and put in: whatever they are, `odx` says something of them."""
import contextlib
import io
import os
import random
import sys

HERE = os.path.dirname(os.path.abspath(__file__))
sys.path.insert(0, os.path.join(HERE, "..", "..", "tools"))

import mistakes  # noqa: E402
from odx_lib import check, cli, patterns, refusals, rulefile, scripts, told, vocabulary  # noqa: E402

SIGNS = "\t\n \"'/[](){}<>@$|&!=?*+^#:-\\\u201c\ufeff\u0000\u00e9\u00b2a1_"
FAULTS = (
    "Yaml line %d kind BadScalar", "Yaml line %d kind BadKey", "Yaml line %d kind Tab", "Pattern rule %d at %d kind Lex", "Pattern rule %d at %d kind Expected",
    "Pattern rule %d at %d kind UnknownField", "UnknownKey rule %d", "MissingKey rule %d", "BadName rule %d", "SameName rule %d", "UnknownVar rule %d",
    "UnknownLabel rule %d", "RegexRefused rule %d number %d", "VarCycle var buy", "Limit which Regexes limit 64",
)
MENTION = (
    '{"arguments":[{"end":2,"label":null,"name":"who","start":1,"text":"Dogs"}],"document":"t","end":2,"label":"L","rule":"r","sentence":0,'
    '"session":"s","start":1,"text":"Dogs"}\n'
)


def mutated(text, chance):
    """The text with one to six changes."""
    signs = list(text)
    for _ in range(chance.randint(1, 6)):
        at, kind = chance.randrange(len(signs) + 1), chance.randrange(3)
        if kind == 0:
            del signs[at : at + chance.randint(1, 5)]
        elif kind == 1:
            signs.insert(at, chance.choice(SIGNS))
        else:
            other = chance.randrange(len(signs) + 1)
            signs[at:at] = signs[other : other + chance.randint(1, 20)]
    return "".join(signs)


class Paths:
    """A mutated file of each kind."""

    def __init__(self, folder, chance):
        self.rules = self.write(folder, "g.yml", mutated(mistakes.RULES, chance))
        self.text = self.write(folder, "t.conllu", mutated(mistakes.TEXT, chance))
        self.script = self.write(folder, "orders", mutated(mistakes.SCRIPT, chance))
        self.output = self.write(folder, "found", mutated(MENTION, chance) if chance.randrange(2) else MENTION)
        self.folder = folder

    def write(self, folder, name, text):
        path = os.path.join(folder, name)
        with open(path, "w", encoding="utf-8", newline="") as file:
            file.write(text)
        return path


def of_grammar(paths, chance):
    grammar = rulefile.read_grammar(paths.rules)
    for form in FAULTS:
        fault = form % tuple(chance.randint(0, 60) for _ in range(form.count("%d")))
        refusals.Reader([grammar], ["g"]).lines(f"odinson: grammar g: {fault}")
    check.warnings(grammar, vocabulary.Vocabulary([paths.text]), chance.choice([1, 3, 100]))
    for rule in grammar.rules:
        patterns.parts(grammar.expanded(rule).text, path=rule.is_event)


def of_script(paths, chance):
    scripts.findings(paths.script)
    for said in (f"odinson: script line {chance.randint(0, 50)}: BadWord", "odinson: grammar g: UnknownLabel rule 2"):
        done = type("Run", (), {"diagnostic": said})()
        scripts.program_lines(paths.script, done, [{"command": "doc", "reply": "BadDoc", "name": "d", "kind": "Columns", "line": chance.randint(1, 40)}])


def of_words(paths, chance):
    page, brat = os.path.join(paths.folder, "p.html"), os.path.join(paths.folder, "brat")
    for words in (
        ["enrich", "--case", "--feats", "--negation", "--enhanced", "--rename", "NER=Entity", paths.text], ["show", paths.output, "--text", paths.text],
        ["show", paths.output, "--text", paths.text, "--brat", brat], ["show", paths.output, "--text", paths.text, "--html", page, "--all"],
        ["show", paths.output, "--longest", "--csv"], ["compare", paths.output, paths.output], ["compare", paths.rules, paths.output],
    ):
        cli.main(words)


def tried(folder, count, seed):
    """Runs all of it on `count` sets of files; what is raised and not told comes out."""
    chance = random.Random(seed)
    for _ in range(count):
        paths = Paths(folder, chance)
        for each in (of_grammar, of_script, of_words):
            with contextlib.redirect_stdout(Sink()), contextlib.redirect_stderr(Sink()), contextlib.suppress(told.Told):
                each(paths, chance)


class Sink(io.TextIOWrapper):
    """A stream that takes text and bytes, as the standard ones do."""

    def __init__(self):
        super().__init__(io.BytesIO(), encoding="utf-8")
