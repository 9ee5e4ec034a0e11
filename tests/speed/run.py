#!/usr/bin/env python3
"""Measures programs on made-up workloads, side by side.

    python3 tests/speed/run.py [--sentences N] [--document N] [--runs N] [--only NAME] PROGRAM..

Each PROGRAM is an executable that is called with the word `serve`. For each workload the programs run
in turn, `--runs` times each; what is told is the least processor time in milliseconds and the greatest
memory in MiB of each, and how the later programs compare with the first. Where their outputs differ,
that is told, and the exit status is 1.

The texts are drawn from a fixed vocabulary by a generator of fixed numbers, so every machine measures
the same bytes. A sentence has 17 words: words are drawn so that the n-th of the vocabulary comes about
1/n as often as the first, each word governs or is governed by a near one, and the relations are those
of a treebank in kind. `--sentences` (10,000) in documents of `--document` (500) sentences each.

Workloads:

    keep      documents alone
    common    one session more: a common tag behind another
    hop       one session more: verbs and their subjects
    rare      one session more: two rare words in a row
    rarehop   one session more: a rare lemma and its subject
    event     one session more: an event of two arguments with a rare trigger
    rules     one session of 200 rules
    single    one document of just below 1 MiB
    small     10,000 documents of two words
    print     one session that prints some 50,000 mentions

`more` is the time of five sessions less that of one, divided by four: what one more costs."""

import argparse
import os
import subprocess
import sys
import tempfile

TAGS = [("NOUN", "NN"), ("VERB", "VBZ"), ("ADJ", "JJ"), ("DET", "DT"), ("ADP", "IN"), ("NOUN", "NNS"), ("ADV", "RB")]
RELATIONS = ["nsubj", "obj", "amod", "det", "case", "nmod", "advmod", "obl", "conj"]
WORDS = 17
VOCABULARY = 20000


class Draws:
    """Numbers that follow one another by a fixed rule."""

    def __init__(self, seed):
        self.state = seed

    def below(self, bound):
        self.state = (self.state * 6364136223846793005 + 1442695040888963407) % 2**64
        return (self.state >> 33) * bound >> 31

    def rank(self):
        """A rank of the vocabulary: the n-th about 1/n as often as the first."""
        top = VOCABULARY
        while self.below(100) < 62 and top > 8:
            top //= 2
        return self.below(top)


def spelled(rank):
    letters, word = "aeioubcdfglmnprst", ""
    rank += len(letters)
    while rank:
        word += letters[rank % len(letters)]
        rank //= len(letters)
    return word


def tag_of(rank):
    return TAGS[rank % len(TAGS)]


def sentence(draws):
    lines = []
    root = 1 + draws.below(WORDS)
    for number in range(1, WORDS + 1):
        rank = draws.rank()
        lemma, (upos, tag) = spelled(rank), tag_of(rank)
        word = lemma + "s" if tag in ("NNS", "VBZ") else lemma
        if number == root:
            head, relation = 0, "root"
        else:
            head = max(1, min(WORDS, number - 3 + draws.below(7)))
            head = head if head != number else root
            relation = RELATIONS[draws.below(len(RELATIONS))]
        lines.append(f"{number}\t{word}\t{lemma}\t{upos}\t{tag}\t_\t{head}\t{relation}\t_\t_\n")
    return "".join(lines) + "\n"


def documents(sentences, document):
    draws, out = Draws(1), []
    for first in range(0, sentences, document):
        count = min(document, sentences - first)
        body = "".join(sentence(draws) for _ in range(count))
        out.append(f"doc d{first // document} {body.count(chr(10))}\n{body}")
    return "".join(out)


def grammar(name, rules):
    text = "rules:\n" + "".join(rules)
    return f"grammar {name} {text.count(chr(10))}\n{text}"


def rule(name, label, kind, pattern):
    lines = "".join(f"      {line}\n" for line in pattern.split("\n"))
    return f"  - name: {name}\n    label: {label}\n    type: {kind}\n    priority: 1\n    pattern: |\n{lines}"


def rare(offset=0):
    """A lemma that is drawn seldom."""
    return spelled(9000 + 7 * offset)


def session(number, rounds=5, shown=False):
    show = f"print s{number}\n" if shown else ""
    return f"open s{number} g {rounds}\nrun s{number}\n{show}release s{number}\n"


def with_sessions(head, docs, count, rounds=5, shown=False):
    return head + "client\n" + docs + "".join(session(n, rounds, shown) for n in range(count))


def workloads(sentences, document):
    docs = documents(sentences, document)
    event = rule("e", "E", "event", f"trigger = [lemma={rare(1)}]\nwho = >nsubj\nwhat? = >obj")
    heads = {
        "common": "query g [tag=DT] [tag=NN]\n",
        "hop": "query g [upos=VERB] >nsubj [upos=NOUN]\n",
        "rare": f"query g [lemma={rare()}] [lemma={rare(2)}]\n",
        "rarehop": f"query g [lemma={rare()}] >nsubj [upos=NOUN]\n",
        "event": grammar("g", [event]),
    }
    forms = ("[lemma={}] [tag=DT] [tag=NN]", "[lemma={}] >nsubj [tag=NN]", "[tag=NN] [lemma={}]")
    rules = [rule(f"r{n}", f"L{n % 20}", "basic", forms[n % 3].format(spelled(40 + 37 * n))) for n in range(200)]
    yield "keep", "client\n" + docs, None
    for name, head in heads.items():
        yield name, with_sessions(head, docs, 1), with_sessions(head, docs, 5)
    yield "rules", with_sessions(grammar("g", rules), docs, 1), None
    draws, body = Draws(2), ""
    while len(body) < 1_040_000:
        body += "".join(sentence(draws) for _ in range(10))
    yield "single", f"client\ndoc d {body.count(chr(10))}\n{body}", None
    pairs = "".join(f"doc d{n} 3\n1\t{spelled(n)}\t_\t_\t_\t_\t2\tdet\t_\t_\n2\tx\t_\t_\t_\t_\t0\troot\t_\t_\n\n" for n in range(9990))
    yield "small", "client\n" + pairs, None
    yield "print", with_sessions("query g [upos=/NOUN|VERB/]\n", documents(min(sentences, 5000), document), 1, 1, True), None


def run(program, path):
    with open(path, "rb") as script, tempfile.TemporaryFile() as out:
        process = subprocess.Popen([program, "serve"], stdin=script, stdout=out, stderr=subprocess.DEVNULL)
        _, status, usage = os.wait4(process.pid, 0)
        process.returncode = os.waitstatus_to_exitcode(status)
        out.seek(0)
        return (usage.ru_utime + usage.ru_stime) * 1000, usage.ru_maxrss // 1024, hash(out.read()), process.returncode


def measure(programs, script, runs):
    best, memory, outputs = {}, {}, {}
    with tempfile.NamedTemporaryFile("w", suffix=".script") as file:
        file.write(script)
        file.flush()
        for _ in range(runs):
            for program in programs:
                time, peak, output, status = run(program, file.name)
                best[program] = min(best.get(program, time), time)
                memory[program] = max(memory.get(program, 0), peak)
                outputs[program] = (output, status)
    return best, memory, outputs


def main():
    parser = argparse.ArgumentParser(description=__doc__, formatter_class=argparse.RawDescriptionHelpFormatter)
    parser.add_argument("--sentences", type=int, default=10000)
    parser.add_argument("--document", type=int, default=500)
    parser.add_argument("--runs", type=int, default=10)
    parser.add_argument("--only", action="append")
    parser.add_argument("programs", nargs="+", metavar="PROGRAM")
    words = parser.parse_args()
    if min(words.sentences, words.document, words.runs) < 1:
        parser.error("--sentences, --document and --runs want numbers from 1")
    for program in words.programs:
        if not os.access(program, os.X_OK):
            parser.error(f"{program} is no program that can be run")
    differ = False
    for name, script, five in workloads(words.sentences, words.document):
        if words.only and name not in words.only:
            continue
        best, memory, outputs = measure(words.programs, script, words.runs)
        first = words.programs[0]
        for program in words.programs:
            parts = [f"{best[program]:8.1f} ms {memory[program]:5d} MiB {best[program] / best[first]:5.2f}"]
            if five is not None:
                more, _, _ = measure([program], five, max(1, words.runs // 2))
                parts.append(f"more {(more[program] - best[program]) / 4:8.2f} ms")
            if outputs[program] != outputs[first]:
                differ = True
                parts.append("ANOTHER OUTPUT")
            print(f"{name:8} {' '.join(parts)}  {program}", flush=True)
    return 1 if differ else 0


if __name__ == "__main__":
    sys.exit(main())
