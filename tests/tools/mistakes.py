"""Mistakes that users make, and what `odx check` says of each.

Each is a mistake in a rule file, a query, a text or a script. What is said must have all the given pieces; `AT` stands for
the path of the file with the mistake. Where nothing may be said, the list is empty.
"""
import re

TEXT = """# sent_id = 1
# text = Acme acquired Bolt in 2019 .
1	Acme	Acme	PROPN	NNP	_	2	nsubj	_	Entity=ORG
2	acquired	acquire	VERB	VBD	_	0	root	_	_
3	Bolt	Bolt	PROPN	NNP	_	2	obj	_	Entity=ORG
4	in	in	ADP	IN	_	5	case	_	_
5	2019	2019	NUM	CD	_	2	obl	_	_
6	.	.	PUNCT	.	_	2	punct	_	_

# sent_id = 2
# text = Bolt was acquired by Acme .
1	Bolt	Bolt	PROPN	NNP	_	3	nsubj:pass	_	Entity=ORG
2	was	be	AUX	VBD	_	3	aux:pass	_	_
3	acquired	acquire	VERB	VBN	_	0	root	_	_
4	by	by	ADP	IN	_	5	case	_	_
5	Acme	Acme	PROPN	NNP	_	3	obl	_	Entity=ORG
6	.	.	PUNCT	.	_	3	punct	_	_

"""
RULES = """# purchases
vars:
  buy: acquire|buy
rules:
- name: org
  label: Org
  type: basic
  priority: 1
  pattern: "[entity=ORG]+"

- name: purchase
  label: Purchase
  type: event
  priority: 2
  pattern: |
    trigger = [lemma=/${buy}/]
    buyer:Org = >nsubj
    bought:Org = >obj
"""
SCRIPT = f"grammar g {RULES.count(chr(10))}\n{RULES}client\ndoc d {TEXT.count(chr(10))}\n{TEXT}open s g 10\nrun s\nprint s\n"


class Mistake:
    """What is given to `odx check`, and the pieces that it must say."""

    def __init__(self, name, said, rules=None, text=None, query=None, script=None, words=()):
        self.name, self.said = name, said
        self.rules, self.text, self.query, self.script, self.words = rules, text, query, script, words


def changed(whole, old, new):
    assert old in whole, old
    return whole.replace(old, new, 1)


def rules(name, old, new, *said, words=()):
    return Mistake(name, said, rules=changed(RULES, old, new), words=words)


def text(name, old, new, *said, count=1):
    return Mistake(name, said, text=TEXT.replace(old, new, count) if count else TEXT.replace(old, new))


def query(name, pattern, *said):
    return Mistake(name, said, query=pattern)


def script(name, old, new, *said):
    return Mistake(name, said, script=changed(SCRIPT, old, new) if isinstance(old, str) else old.sub(new, SCRIPT))


def other_number(kind, difference):
    """The script with another N behind a head."""
    return re.compile(rf"^({kind} \w+) (\d+)$", re.M), lambda x: f"{x.group(1)} {int(x.group(2)) + difference}"


def number(name, kind, difference, *said):
    form, new = other_number(kind, difference)
    return Mistake(name, said, script=form.sub(new, SCRIPT))


ALL = [
    Mistake("nothing wrong", ["nothing is wrong"]),
    # A rule file that cannot be read.
    rules("a pattern with [ unquoted", '"[entity=ORG]+"', "[entity=ORG]+", "AT:9:", "begins with [ needs quotes", "  pattern: [entity"),
    rules("single quotes", '"[entity=ORG]+"', "'[entity=ORG]+'", "AT:9:", "no single quotes"),
    rules("one backslash between double quotes", '"[entity=ORG]+"', '"[word=/Bolt\\.?/]"', "AT:9:", "a backslash is written twice"),
    rules("a folded text", "pattern: |", "pattern: >", "AT:15:", "with | or |- alone"),
    rules("a kept text", "pattern: |", "pattern: |+", "AT:15:", "with | or |- alone"),
    rules("a tab in front", "  label: Org", "\tlabel: Org", "AT:6:", "spaces in place of the tab"),
    rules("a key misspelt", "priority: 1", "prioriy: 1", "AT:8:", "rule org has an unknown key", "prioriy", "near: priority"),
    rules("no space behind the colon", "label: Org", "label:Org", "AT:6:", "one space"),
    rules("keys that are not in line", "  type: basic", "   type: basic", "AT:7:", "below its first key"),
    rules("a document mark", "# purchases", "---", "AT:1:", "no `---`"),
    rules("a key of Odin", "  priority: 1\n", "  priority: 1\n  action: default\n", "AT:9:", "no key is action", "Odin"),
    rules("an event on one line", "pattern: |\n    trigger = [lemma=/${buy}/]", "pattern: trigger: x\n    trigger = [lemma=/${buy}/]", "AT:15:", "`: ` in it needs quotes"),
    # Patterns that are none.
    rules("a comment behind a line", ">nsubj\n", ">nsubj  # who\n", "AT:17:", "rule purchase", "no comments"),
    rules("a comment line in a pattern", "    buyer:Org", "    # who\n    buyer:Org", "AT:17:", "no comments"),
    rules("an expression without slashes", '"[entity=ORG]+"', '"[lemma=acqui.*]"', "AT:9:", "between slashes"),
    query("words with | as one value", "[lemma=acquire|buy]", "[lemma=acquire|buy]", "               ^", "[lemma=a | lemma=b]"),
    query("a flag behind an expression", "[word=/acme/i]", "(?i) at its beginning"),
    query("a tag with $", "[tag=PRP$]", "between quotes"),
    query("a label without a pattern behind", "[lemma=acquire] >nsubj", "[] is any token"),
    query("alternatives at the top of a hop", "acquired >nsubj [] | acquired >obj []", "stand in brackets"),
    query("a bare full stop", "Bolt in 2019 .", "between quotes: '.'"),
    query("a number with a comma", "1,000", "between quotes: ','"),
    query("a word with an apostrophe", "'s", "between double quotes: \"'s\""),
    query("not equal", "[lemma!=acquire]", "[!lemma=a]"),
    query("two signs for and", "[lemma=a && tag=b]", "one & and not two"),
    query("a word within a look", "(?<!not) acquired", "a look holds one constraint"),
    query("a field of another tool", "[xpos=NN]", "for xpos take tag"),
    query("a field in capitals", "[Lemma=a]", "for Lemma take lemma"),
    rules("an event as a basic rule", "type: event", "type: basic", "AT:16:", "type says basic"),
    rules("a basic rule as an event", "type: basic", "type: event", "AT:9:", "`type: basic`"),
    rules("an argument twice", "bought:Org", "buyer:Org", "AT:18:", "stands twice", "different names"),
    rules("two words as a name", "bought:Org", "what bought:Org", "AT:18:", "one name"),
    rules("a word at the end of a path", ">obj", ">obj Bolt", "AT:18:", "[lemma=bolt]"),
    rules("a variable misspelt", "${buy}", "${by}", "AT:16:", "no variable is by", "near: buy"),
    Mistake("a variable that is wrong within", ["AT:3:", "in variable buy", "trigger = acquire %", "between quotes: '%'"], rules=RULES.replace("acquire|buy", "acquire %").replace("[lemma=/${buy}/]", "${buy}")),
    rules("a label misspelt in use", "buyer:Org", "buyer:Orgs", "AT:17:", "no rule has the label Orgs", "near: Org"),
    rules("a label in small letters", "buyer:Org", "buyer:org", "AT:17:", "near: Org"),
    query("a look within an expression", "[lemma=/(?!acq).*/]", "no look-ahead"),
    query("a back reference", "[lemma=/(a)\\1/]", "no back reference"),
    rules("an expression with an open bracket", '"[entity=ORG]+"', '"[lemma=/(acq/]"', "AT:9:", "does not take /(acq/"),
    rules("a priority in words", "priority: 2", "priority: last", "AT:14:", "2, 2-4 or 2+"),
    rules("two rules of one name", "name: purchase", "name: org", "AT:11:", "two rules are named org"),
    rules("a rule without a type", "  type: event\n", "", "AT:11:", "rule purchase has no type"),
    # What runs and finds nothing.
    query("a part of a word", "[lemma=/acqui/]", "fit the whole lemma", "/.*acqui.*/", "acquire"),
    query("an expression in quotes", '[lemma="acqui.*"]', "is no expression: /acqui.*/"),
    query("slashes in quotes", '[lemma="/acqui.*/"]', "without the quotes"),
    rules("a relation of version 1", ">obj", ">dobj", "AT:18:", "no relation of the texts is dobj", "it is obj", "purchase found nothing", "odx why"),
    query("a passive of version 1", "[lemma=acquire] >nsubjpass []", "it is nsubj:pass"),
    query("a subtype that the text has not", "[lemma=acquire] >obl:agent []", "there is obl"),
    rules("an arrow the wrong way", ">nsubj", "<nsubj", "rule purchase found nothing"),
    rules("priorities in the wrong order", "priority: 1", "priority: 3", "AT:17:", "seen from round 4 on", "runs last in round 2"),
    rules("priorities that are equal", "priority: 2", "priority: 1", "AT:17:", "seen from round 2 on", "runs last in round 1"),
    rules("too few rounds", "# purchases", "#", "has 1 round: it never runs", words=["--rounds", "1"]),
    rules("no round at all", "# purchases", "#", "1 to 100 rounds, and not 0", words=["--rounds", "0"]),
    rules("a label that no later rule waits for", "  priority: 1\n", "  priority: 2\n", "seen from round 3 on"),
    rules("an argument that may stay away too early", "  priority: 2\n", "  priority: 1+\n"),
    rules("an unfinished event", "bought:Org = >obj", "bought:Org? = >obj"),
    rules("an event that does not wait", "  priority: 2\n  pattern: |\n    trigger = [lemma=/${buy}/]\n    buyer:Org = >nsubj\n    bought:Org = >obj", "  pattern: |\n    trigger = [lemma=/${buy}/]\n    bought:Org? = >obj", "? does not wait for", "priority 2 waits"),
    rules("a variable without brackets", "${buy}", "$buy", "AT:16:", "a variable is ${buy}"),
    query("tags in the column of upos", "[upos=NNP]", "write tag=NNP"),
    query("capitals in an expression on norms", "/ACME/", "norms are in small letters"),
    query("typographic quotes", "[lemma=\u201cacquire\u201d]", "typographic quotes"),
    text("entities under another key", "Entity=", "NER=", "no token of the texts has Entity=", "NER", "--rename", count=0),
    text("entities with letters in front", "Entity=", "Entity=B-", "the texts have B-ORG", "/[A-Z]-ORG/", count=0),
    rules("a label misspelt in its rule", "label: Purchase", "label: Purchas"),
    rules("a pattern behind a path", ">obj", ">obj []"),
    # Texts that are none.
    text("tabs lost", "\t", "    ", "AT:3:", "in place of tabs", count=0),
    text("one tab lost", "2\tacquired", "2 acquired", "AT:4:", "9 columns", "2 acquired\u2192acquire"),
    Mistake("lines that end by CR LF", ["nothing is wrong"], text=TEXT.replace("\n", "\r\n")),
    Mistake("a byte order mark", ["nothing is wrong"], text="\ufeff" + TEXT),
    text("no empty line between sentences", "\n\n", "\n", "AT:11:", "is the empty line between two sentences missing?"),
    text("neither an empty line nor comments", "\n\n# sent_id = 2\n# text = Bolt was acquired by Acme .\n", "\n", "AT:9:", "empty line"),
    text("an empty line with a blank", "\n\n", "\n \n", "AT:9:", "the line between two sentences is empty"),
    text("a head too large", "\t2\tpunct", "\t22\tpunct", "AT:8:", "HEAD"),
    text("a word that is its own head", "PROPN\tNNP\t_\t2\tnsubj", "PROPN\tNNP\t_\t1\tnsubj", "AT:3:", "(Acme) is its own head"),
    Mistake("a text that is not UTF-8", ["AT:5:", "save the file as UTF-8"], text=TEXT.encode().replace(b"\tBolt\t", b"\tB\xf6lt\t", 1)),
    Mistake("no last line feed", ["nothing is wrong"], text=TEXT.rstrip("\n")),
    # Scripts written by hand.
    number("N of a text too small by three", "doc", -3, "AT:21:", "18 lines stand behind it, and N is 15", "N of the `doc` above is too small"),
    number("N of a text too large by one", "doc", 1, "AT:21:", "18 lines stand behind it, and N is 19", "N of the document is too large", "NoSession"),
    number("N of a text too large by three", "doc", 3, "AT:21:", "18 lines stand behind it, and N is 21"),
    number("N of a text too large by thirty", "doc", 30, "AT:21:", "N of this block is too large"),
    number("N of a text without its last empty line", "doc", -1),
    number("N of a grammar too small by one", "grammar", -1, "AT:1:", "18 lines stand behind it, and N is 17", "N of the `grammar` above is too small"),
    number("N of a grammar too small by two", "grammar", -2, "AT:1:", "18 lines stand behind it, and N is 16"),
    number("N of a grammar too large by one", "grammar", 1, "AT:1:", "18 lines stand behind it, and N is 19"),
    number("N of a grammar too large by two", "grammar", 2, "AT:1:", "18 lines stand behind it, and N is 20"),
    script("a name with a blank", "doc d ", "doc my doc ", "AT:21:", "doc NAME N"),
    script("a name with a slash", "doc d ", "doc a/b ", "AT:21:", "A-Z a-z 0-9 _ . -"),
    script("no client", "client\n", "", "AT:20:", "behind a line `client`"),
    Mistake("a grammar behind a client", ["AT:2:", "before the first `client`"], script="client\n" + SCRIPT.replace("client\n", "")),
    script("a session of another name", "open s g", "open s G", "NoGrammar", "no grammar of this name"),
    script("a session of no round", "open s g 10", "open s g 0", "AT:40:", "1 to 100 rounds"),
    script("a text behind the session", re.compile(r"(doc d .*?)(open s g 10\n)", re.S), r"\2\1", "AT:22:", "was opened before this document"),
    script("print before run", "run s\n", "", "AT:41:", "printed before it ran"),
    script("run twice", "run s\n", "run s\nrun s\n", "Finished", "one `run` is enough"),
    script("a second client without release", "run s\n", "client\nrun s\n", "Busy", "another client holds the session"),
    script("an order that is indented", "run s", " run s", "AT:41:", "blanks stand before or behind"),
    script("a blank at the end", "run s", "run s ", "AT:41:", "blanks stand before or behind"),
    Mistake("two grammars of one name", ["AT:2:", "this name already"], script="query g a\n" + SCRIPT),
    Mistake("a byte order mark before a script", ["AT:1:", "byte order mark"], script="\ufeff" + SCRIPT),
    script("a rule that is wrong in a script", "buyer:Org", "buyer:Orgs", "AT:18:", "near: Org"),
]
