#!/usr/bin/env python3
"""Tries the words of `tools/odx`: what is said of mistakes, what is shown, and that no input brings about a traceback.

It needs the program: ODINSON names it, or the one that this repository builds. Where there is none, what needs it is skipped,
with a line that says so, and the rest is tried.
"""
import csv
import io
import json
import os
import re
import subprocess
import sys
import tempfile

HERE = os.path.dirname(os.path.abspath(__file__))
TOP = os.path.normpath(os.path.join(HERE, "..", ".."))
ODX = os.path.join(TOP, "tools", "odx")
BUILT = os.path.join(TOP, "crates", "odinson_cli", "out", "odinson_cli")
sys.path.insert(0, HERE)

import mistakes  # noqa: E402
import mutated  # noqa: E402

RULES, TEXT = mistakes.RULES, mistakes.TEXT


class Failed(Exception):
    pass


class Tried:
    """What a run of `odx` gave."""

    def __init__(self, done):
        self.status = done.returncode
        self.out = done.stdout.decode("utf-8", "replace")
        self.err = done.stderr.decode("utf-8", "replace")
        self.said = self.out + self.err


def odx(*words, given=b""):
    done = subprocess.run([sys.executable, ODX, *words], input=given, capture_output=True, timeout=120)
    tried = Tried(done)
    if "Traceback" in tried.said:
        raise Failed(f"a traceback: {tried.said[-600:]}")
    return tried


def write(folder, name, data):
    path = os.path.join(folder, name)
    with open(path, "wb") as file:
        file.write(data if isinstance(data, bytes) else data.encode())
    return path


def need(condition, what, tried=None):
    if not condition:
        raise Failed(what + (f"\n    said: {tried.said[:700]}" if tried else ""))


def equal(found, wanted, what):
    if found != wanted:
        raise Failed(f"{what}\n    found  {found!r}\n    wanted {wanted!r}")


def of_mistake(mistake, folder):
    """Each mistake is told with the pieces of the table, and with nothing else than these allow."""
    text = write(folder, "text.conllu", TEXT if mistake.text is None else mistake.text)
    at = text
    if mistake.script is not None:
        at = write(folder, "orders", mistake.script)
        tried = odx("check", at)
    elif mistake.query is not None:
        at = "the query"
        tried = odx("check", mistake.query, text, *mistake.words)
    else:
        path = write(folder, "rules.yml", RULES if mistake.rules is None else mistake.rules)
        at = path if mistake.text is None else text
        tried = odx("check", path, text, *mistake.words)
    for piece in mistake.said:
        need(piece.replace("AT:", at + ":") in tried.said, f"it is not said: {piece}", tried)
    if not mistake.said:
        need("warning" not in tried.out and not re.search(r"\bis no\b|refused", tried.out), "something is said", tried)


def sample(folder, name="text.conllu"):
    return write(folder, "rules.yml", RULES), write(folder, name, TEXT)


def test_lines_have_the_words_around_a_mention(folder):
    tried = odx("run", *sample(folder), "--label", "Purchase")
    equal(tried.out, "text:1                                          Acme [acquired] Bolt in 2019 .              Purchase  buyer:Org=Acme; bought:Org=Bolt\n", "the line of a mention")
    need("1 mention: Purchase 1" in tried.err, "the number of mentions is told", tried)


def test_table_csv_list_and_json_have_the_same_mentions(folder):
    given = sample(folder)
    table = odx("run", *given, "--table").out.splitlines()
    equal(table[-1], "text:1\tPurchase\tacquired\tbuyer:Org=Acme; bought:Org=Bolt", "the last line of the table")
    rows = list(csv.DictReader(io.StringIO(odx("run", *given, "--csv").out)))
    equal([(x["document"], x["sentence"], x["sent_id"], x["start"], x["label"], x["text"]) for x in rows][0], ("text", "0", "1", "0", "Org", "Acme"), "the first row of CSV")
    lines = [json.loads(x) for x in odx("run", *given, "--json").out.splitlines()]
    equal(len({len(table), len(rows), len(lines), len(odx("run", *given, "--list").out.splitlines())}), 1, "the number of mentions")


def test_counts_are_by_label_and_rule(folder):
    equal(odx("run", *sample(folder), "--counts").out, "        4  Org\n        4      org\n        1  Purchase\n        1      purchase\n", "counts")


def test_written_text_has_no_space_after_and_contracted_words(folder):
    text = (
        "1-2\tdel\t_\t_\t_\t_\t_\t_\t_\t_\n1\tde\tde\tADP\t_\t_\t3\tcase\t_\t_\n2\tel\tel\tDET\t_\t_\t3\tdet\t_\t_\n"
        "3\thotel\thotel\tNOUN\t_\t_\t0\troot\t_\tSpaceAfter=No\n4\t.\t.\tPUNCT\t_\t_\t3\tpunct\t_\t_\n"
    )
    tried = odx("run", "el hotel", write(folder, "s.conllu", text), "--csv")
    equal(tried.out.splitlines()[1], "s,0,,1,3,Query,query,el hotel,,del hotel.", "the text as it was written")
    need("[del hotel]" in odx("run", "el hotel", os.path.join(folder, "s.conllu")).out, "the contracted word as a whole")
    brat = os.path.join(folder, "brat")
    odx("run", "hotel", os.path.join(folder, "s.conllu"), "--brat", brat)
    with open(os.path.join(brat, "s.txt"), encoding="utf-8") as file:
        equal(file.read(), "del hotel.\n", "the text for brat")
    with open(os.path.join(brat, "s.ann"), encoding="utf-8") as file:
        equal(file.read(), "T1\tQuery 4 9\thotel\n", "the place for brat")


def test_brat_has_events_with_their_arguments(folder):
    brat = os.path.join(folder, "brat")
    odx("run", *sample(folder), "--brat", brat)
    with open(os.path.join(brat, "text.ann"), encoding="utf-8") as file:
        rows = file.read().splitlines()
    need("E1\tPurchase:T5 buyer:T1 bought:T2" in rows, f"the event: {rows}")
    with open(os.path.join(brat, "text.txt"), encoding="utf-8") as file:
        text = file.read()
    for row in rows:
        found = re.match(r"T\d+\t\w+ (\d+) (\d+)\t(.*)$", row)
        if found:
            equal(text[int(found.group(1)) : int(found.group(2))], found.group(3), "a place for brat")


def test_longest_leaves_out_what_another_contains(folder):
    rules = RULES.replace('"[entity=ORG]+"', '"[entity=ORG]"') + '- name: long\n  label: Org\n  type: basic\n  pattern: "[entity=ORG] acquired Bolt"\n'
    text = write(folder, "text.conllu", TEXT)
    tried = odx("run", write(folder, "r.yml", rules), text, "--longest", "--label", "Org", "--table")
    equal([x.split("\t")[2] for x in tried.out.splitlines()], ["Acme acquired Bolt", "Bolt", "Acme"] if tried.out.startswith("text:1\tOrg\tAcme a") else ["Bolt", "Acme", "Acme acquired Bolt"], "the longest")


def test_a_long_text_is_cut_and_shards_find_the_same(folder):
    text = write(folder, "long.conllu", "".join(f"# {'x' * 300000}\n{TEXT}" for _ in range(9)))
    rules, _ = sample(folder)
    one = odx("run", rules, text, "--list")
    need("refused" not in one.err, "nothing is refused", one)
    three = odx("run", rules, text, "--list", "--shards", "3", "--jobs", "2")
    equal(sorted(one.out.splitlines()), sorted(three.out.splitlines()), "the mentions of one script and of three")
    need(any(x.startswith("long.2 ") for x in one.out.splitlines()), "the text is cut into documents", one)
    out = odx("script", rules, text, "--shards", "2", "--out", os.path.join(folder, "part"))
    equal([os.path.basename(x) for x in out.out.splitlines()], ["part.1.script", "part.2.script"], "the scripts")
    made = []
    for path in out.out.splitlines():
        with open(path, "rb") as file:
            done = subprocess.run([program(), "serve"], stdin=file, capture_output=True)
        made.append(write(folder, os.path.basename(path) + ".out", done.stdout))
    shown = odx("show", *made, "--text", text, "--list")
    equal(sorted(shown.out.splitlines()), sorted(one.out.splitlines()), "the mentions of outputs together")


def test_show_reads_an_output_with_and_without_texts(folder):
    rules, text = sample(folder)
    made = odx("script", rules, text)
    done = subprocess.run([program(), "serve"], input=made.out.encode(), capture_output=True)
    out = write(folder, "out", done.stdout)
    need("[acquired]  " in odx("show", out).out, "a mention without its text")
    equal(odx("show", out, "--text", text).out, odx("run", rules, text).out, "show and run")
    equal(odx("show", "-", "--text", text, given=done.stdout).out, odx("run", rules, text).out, "show of standard input")


def test_texts_of_the_same_name_and_standard_input(folder):
    rules, text = sample(folder)
    os.makedirs(os.path.join(folder, "b"))
    again = write(os.path.join(folder, "b"), "text.conllu", TEXT)
    tried = odx("run", rules, text, again, "--table")
    equal({x.split(":")[0] for x in tried.out.splitlines()}, {"text", "text-2"}, "names of documents")
    need("stdin:1" in odx("run", rules, "-", given=TEXT.encode()).out, "standard input is a text")


def test_page_has_each_sentence_and_no_address(folder):
    page = os.path.join(folder, "page.html")
    text = TEXT.replace("Bolt\tBolt", "</script><b>\tBolt")
    odx("run", write(folder, "rules.yml", RULES), write(folder, "t.conllu", text), "--html", page)
    with open(page, encoding="utf-8") as file:
        body = file.read()
    need("https://" not in body and body.count("http://") == 1, "the page asks for nothing (the one address names SVG)")
    data = re.search(r'<script type="application/json" id="data">(.*?)</script>', body, re.S).group(1)
    rows = json.loads(data)
    equal([(len(x["w"]), len(x["m"])) for x in rows], [(6, 3), (6, 2)], "words and mentions of each sentence")
    equal(rows[0]["w"][2][0], "</script><b>", "a word that looks like the end of the data")


def test_why_shows_the_part_that_fails(folder):
    rules, text = sample(folder)
    wrong = write(folder, "wrong.yml", RULES.replace(">obj", ">dobj"))
    tried = odx("why", wrong, "purchase", text)
    need("       2  trigger = [lemma=/acquire|buy/]" in tried.out, "the trigger alone", tried)
    need("       0  bought:Org = >dobj" in tried.out, "the argument that fails", tried)
    need("from there lead >nsubj Acme, >obj Bolt" in tried.out, "the arcs that are there", tried)
    early = write(folder, "early.yml", RULES.replace("priority: 2", "priority: 1"))
    tried = odx("why", early, "purchase", text)
    need("runs last in round 1, and sees them from round 2 on" in tried.out, "the round", tried)
    tried = odx("why", "[lemma=acquire] <nsubj []", text)
    need("<nsubj ends at acquired" in tried.out, "the step of a query", tried)
    need("near" not in tried.err and "no rule is named purchas;" in odx("why", rules, "purchas", text).err, "a rule that is not there")


def test_enrich_writes_columns_that_are_read(folder):
    _, text = sample(folder)
    equal(odx("enrich", "--case", text).out.count("\tobl:by\t"), 1, "the preposition of an oblique")
    made = odx("enrich", "--list", write(folder, "list", "# names\nYEAR\t2019\nbolt\n"), "--label", "FIRM", "--replace", text).out
    equal((made.count("Entity=YEAR"), made.count("Entity=FIRM"), made.count("Entity=ORG")), (1, 2, 2), "names of a list")
    feats = TEXT.replace("VBD\t_", "VBD\tTense=Past")
    equal(odx("enrich", "--feats", given=feats.encode()).out.count("VBD|Tense=Past"), 2, "FEATS behind the tag")
    deps = TEXT.replace("5\tobl\t_", "5\tobl\t_").replace("\t2\tobl\t_\t", "\t2\tobl\t2:obl:in|4:x\t")
    tried = odx("enrich", "--enhanced", given=deps.encode())
    need("\t2\tobl:in\t2:obl:in|4:x\t" in tried.out and "1 further head" in tried.err, "the relation of DEPS", tried)
    negated = TEXT.replace("4\tin\tin\tADP\tIN\t_\t5\tcase", "4\tnot\tnot\tPART\tRB\t_\t2\tadvmod")
    need("root\t_\tChunk=neg" in odx("enrich", "--negation", given=negated.encode()).out, "a negated verb")
    equal(odx("enrich", "--rename", "NER=Entity", given=TEXT.replace("Entity=", "NER=B-").encode()).out.count("|Entity=ORG"), 4, "another key")
    equal(odx("enrich", "--case", given=TEXT.replace("\n", "\r\n").encode()).out.count("\r\n"), TEXT.count("\n"), "line ends stay")


def test_compare_has_rates_and_what_differs(folder):
    rules, text = sample(folder)
    found = write(folder, "found", odx("run", rules, text, "--json").out)
    gold = write(folder, "gold", "# by hand\n0 Org Acme[]\n0 Org Bolt[]\n1 Org Bolt[]\n1 Org Zinc[]\n0 Purchase acquired[bought:Org=Bolt; buyer:Org=Acme]\n")
    tried = odx("compare", found, gold)
    need("Org                         4        4        3      0.750   0.750  0.750" in tried.out, "the rates of a label", tried)
    need("  1 Org Zinc[]" in tried.out and "  1 Org Acme[]" in tried.out, "what differs", tried)
    equal(tried.status, 1, "the status where something differs")
    table = write(folder, "table", odx("run", rules, text, "--csv").out)
    equal(odx("compare", found, table).status, 0, "an output and its table are equal")


BAD = [
    ("no word", [], 2, "odx WORD"),
    ("a word that is none", ["find"], 2, "find"),
    ("no text", ["run", "RULES"], 2, "TEXT"),
    ("a text that is not there", ["run", "RULES", "none.conllu"], 2, "none.conllu: No such file"),
    ("a grammar that is not there", ["run", "none.yml", "TEXT"], 2, "none.yml: there is no such file"),
    ("a folder", ["run", "RULES", "FOLDER"], 2, "this is a folder"),
    ("a text as grammar", ["run", "TEXT", "TEXT"], 2, "a text in the place of the grammar"),
    ("a grammar as text", ["run", "RULES", "RULES"], 2, "a rule file in the place of a text"),
    ("an empty text", ["run", "RULES", "EMPTY"], 1, "there is no sentence"),
    ("bytes", ["run", "RULES", "BYTES"], 1, "NotUtf8"),
    ("a grammar of bytes", ["run", "BYTES", "TEXT"], 2, "BYTES:1: these bytes are not UTF-8"),
    ("UTF-16", ["run", "RULES", "UTF16"], 2, "this is UTF-16"),
    ("a query of two lines", ["run", "a\nb", "TEXT"], 2, "a query is one line"),
    ("a program that is not there", ["run", "RULES", "TEXT", "--program", "none"], 2, "none: this is no program"),
    ("an output that is none", ["show", "TEXT"], 2, "TEXT:1: this is no line that the program writes"),
    ("an output that is not there", ["show", "none"], 2, "none: No such file"),
    ("a page without texts", ["show", "EMPTY", "--html", "x.html"], 2, "needs the texts"),
    ("a page in no folder", ["run", "RULES", "TEXT", "--html", "/none/x.html"], 2, "/none/x.html: No such file"),
    ("a gold file that is none", ["compare", "RULES", "RULES"], 2, "RULES:2: this is no mention"),
    ("rounds", ["run", "RULES", "TEXT", "--rounds", "500"], 2, "1 to 100 rounds"),
    ("shards", ["script", "RULES", "TEXT", "--shards", "0"], 2, "from 1 to 10000"),
    ("why without a rule", ["why", "RULES", "TEXT"], 2, "the rule's name stands before the texts"),
    ("nothing to enrich", ["enrich", "TEXT"], 2, "nothing is asked for"),
    ("a wrong key to rename", ["enrich", "--rename", "NER", "TEXT"], 2, "OLD=Entity"),
    ("a text of another form to enrich", ["enrich", "--case", "RULES"], 2, "RULES:2: the line has 1 column"),
]


def test_wrong_words_and_files_are_told(folder):
    files = {
        "RULES": write(folder, "r.yml", RULES), "TEXT": write(folder, "t.conllu", TEXT), "EMPTY": write(folder, "empty", b""), "FOLDER": folder,
        "BYTES": write(folder, "bytes", b"1\t\xff\xfe\x00\n\n"), "UTF16": write(folder, "u", "rules:".encode("utf-16")),
    }
    for name, words, status, piece in BAD:
        tried = odx(*[files.get(word, word) for word in words])
        for key, path in files.items():
            piece = piece.replace(key + ":", path + ":")
        need(piece in tried.said, f"{name}: it is not said: {piece}", tried)
        equal(tried.status, status, f"{name}: the status")


def test_mutated_files_bring_about_no_traceback(folder):
    mutated.tried(folder, 40, 7)


def test_each_word_has_help(folder):
    for word in ("script", "run", "show", "check", "why", "enrich", "compare"):
        tried = odx(word, "--help")
        need(tried.status == 0 and "usage: odx " + word in tried.out, f"help of {word}", tried)


def program():
    path = os.environ.get("ODINSON") or BUILT
    return path if os.path.isfile(path) and os.access(path, os.X_OK) else None


ALONE = {test_each_word_has_help, test_enrich_writes_columns_that_are_read, test_mutated_files_bring_about_no_traceback}


def tests():
    for name, value in list(globals().items()):
        if name.startswith("test_"):
            yield name[5:].replace("_", " "), value
    for mistake in mistakes.ALL:
        yield "mistake: " + mistake.name, lambda folder, each=mistake: of_mistake(each, folder)


def main():
    wanted = sys.argv[1:]
    failed = passed = skipped = 0
    for name, test in tests():
        if wanted and not any(word in name for word in wanted):
            continue
        if program() is None and test not in ALONE:
            skipped += 1
            continue
        with tempfile.TemporaryDirectory(prefix="odx.test.") as folder:
            try:
                test(folder)
                passed += 1
            except Failed as fault:
                failed += 1
                print(f"FAILED {name}: {fault}")
    if skipped:
        print(f"{skipped} skipped: the program is not built; (cd crates/odinson_cli && rt run -- serve < stdin) builds it, or ODINSON names it")
    print(f"{passed} passed, {failed} failed")
    return 1 if failed else 0


if __name__ == "__main__":
    sys.exit(main())
