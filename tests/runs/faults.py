"""Scripts with a fault each, and the exact line that tells it."""


def script(script, line, kind):
    """A script that is refused, with the line on standard error."""
    return script.encode("latin-1"), 3, "", f"odinson: script line {line}: {kind}\n"


def grammar(lines, said):
    """A script whose rule file `g` is refused."""
    text = lines if lines.endswith("\n") else lines + "\n"
    head = f"grammar g {text.count(chr(10))}\n{text}client\n"
    return head.encode(), 4, "", f"odinson: grammar g: {said}\n"


def query(pattern, said):
    """A script whose query `q` is refused."""
    return f"query q {pattern}\nclient\n".encode(), 4, "", f"odinson: grammar q: {said}\n"


def document(body, line, kind):
    """A script whose one document is refused; it goes on."""
    count = body.count(b"\n") + (0 if body.endswith(b"\n") or not body else 1)
    told = f'{{"call":1,"caller":1,"command":"doc","kind":"{kind}","line":{line},"name":"d","reply":"BadDoc"}}\n'
    return b"client\ndoc d %d\n" % count + body, 1, told, ""


def rule(keys):
    return "rules:\n- " + "\n  ".join(keys)


def basic(pattern, name="a", label="L", extra=()):
    return [f"name: {name}", f"label: {label}", "type: basic", *extra, f"pattern: {pattern}"]


def event(*lines):
    return rule(["name: a", "label: L", "type: event", "pattern: |", *("  " + line for line in lines)])


def word(number, form="w", head="0"):
    return f"{number}\t{form}\t_\t_\t_\t_\t{head}\t_\t_\t_\n".encode()


# A script that is none.
SCRIPTS = [
    script("x" * 67108865, 0, "TooLong"),
    script("client\n#\xff\n", 2, "NotUtf8"),
    script("grammar g 2\na\n\xff\n", 3, "NotUtf8"),
    script("Client\n", 1, "BadWord"),
    script("client\nquery q a\n", 2, "LateHead"),
    script("settle\n", 1, "NoClient"),
    script("query q\n", 1, "Shape"),
    script("query  a\n", 1, "BadName"),
    script("grammar g 01\n", 1, "BadNumber"),
    script("query q a\nquery q b\n", 2, "SameHead"),
    script("client\ndoc d 2\nx\n", 2, "ShortBlock"),
    script("client\n" * 9, 9, "TooMany"),
]

# A rule file whose lines cannot be read.
FILES = [
    grammar("rules:\n\t- name: a", "Yaml line 2 kind Tab"),
    grammar("rules:\n- name: a\n label: b", "Yaml line 3 kind Indent"),
    grammar("rules:\n- name: a\nx: y", "Yaml line 3 kind Item"),
    grammar("rules:\n- name:", "Yaml line 2 kind BadKey"),
    grammar("rules:\n- name: a\n  name: b", "Yaml line 3 kind SameKey"),
    grammar("rules:\n- name: a\n  label: [b]", "Yaml line 3 kind BadScalar"),
    grammar("vars:\n  a: b\nrules:", "Yaml line 3 kind NoRules"),
]

# A rule file with a fault in a rule, or in all of them together.
RULES = [
    grammar(rule(["name: a", "colour: red"]), "UnknownKey rule 1"),
    grammar(rule(["name: a", "label: L", "type: basic"]), "MissingKey rule 1"),
    grammar(rule(basic("x", name='""')), "BadName rule 1"),
    grammar(rule(basic("x")) + "\n- " + "\n  ".join(basic("y")), "SameName rule 2"),
    grammar(rule(basic("x", label="two words")), "BadLabel rule 1"),
    grammar(rule(["name: a", "label: L", "type: other", "pattern: x"]), "BadType rule 1"),
    grammar(rule(basic("x", extra=["priority: 3-2"])), "BadPriority rule 1"),
    grammar(rule(basic("${b}")), "UnknownVar rule 1"),
    grammar("vars:\n  a: ${b}\n  b: ${a}\n" + rule(basic("${a}")), "VarCycle var a"),
    grammar("vars:\n  long: abcdef\n" + rule(basic("${long} >x")), "Pattern rule 1 at 9 kind Expected"),
    grammar(rule(basic('"@M"')), "UnknownLabel rule 1"),
    grammar(event("trigger = a", "who:M = >nsubj"), "UnknownLabel rule 1"),
    grammar(event("trigger = /a/", "who = >/(/"), "RegexRefused rule 1 number 2"),
]

# Limits.
LIMITS = [
    query("a" * 65537, "Limit which GrammarBytes limit 65536"),
    grammar("rules:\n" + "- colour: a\n" * 201, "Limit which Rules limit 200"),
    grammar("rules:\n- colour: a\nvars:\n" + "".join(f"  v{n}: x\n" for n in range(101)), "Limit which Vars limit 100"),
    query("a" * 16385, "Limit which PatternBytes limit 16384"),
    query(" ".join(f"/x{n}/" for n in range(65)), "Limit which Regexes limit 64"),
    # The first query leaves room for none, not even for an expression of its own.
    *(
        (
            ("query p " + " ".join(f"/x{n}/" for n in range(64)) + f"\nquery q {pattern}\n").encode(),
            4,
            "",
            "odinson: grammar q: Limit which Regexes limit 64\n",
        )
        for pattern in ("/y/", "/x0/")
    ),
]

# Patterns.
PATTERNS = [
    query("a %", "Pattern rule 1 at 2 kind Lex"),
    query('a "b', "Pattern rule 1 at 2 kind Lex"),
    query("a /b", "Pattern rule 1 at 2 kind Lex"),
    query("a{01}", "Pattern rule 1 at 1 kind Lex"),
    query("", "Pattern rule 1 at 0 kind Expected"),
    query("a | b >x c", "Pattern rule 1 at 6 kind Expected"),
    query("[tag NN]", "Pattern rule 1 at 5 kind Expected"),
    query("[colour=red]", "Pattern rule 1 at 1 kind UnknownField"),
    query("a{2,1}", "Pattern rule 1 at 1 kind BadRange"),
    query("(a?)+", "Pattern rule 1 at 4 kind NullableRepeat"),
    query("(?<x>a) >y (?<x>b)", "Pattern rule 1 at 11 kind SameCapture"),
    query("a /" + "b" * 201 + "/", "Pattern rule 1 at 2 kind RegexLong"),
    query("(" * 101, "Pattern rule 1 at 100 kind TooDeep"),
    query("(a{1000}){5}", "Pattern rule 1 at 0 kind TooBig"),
    query("${v}", "UnknownVar rule 1"),
    query("@Animal", "UnknownLabel rule 1"),
    query("/(/", "RegexRefused rule 1 number 1"),
    grammar(event("who = >nsubj"), "Pattern rule 1 at 0 kind Expected"),
    grammar(event("trigger = a >x b"), "Pattern rule 1 at 12 kind Expected"),
    grammar(event("trigger = (?<x>a)", "x = >y"), "Pattern rule 1 at 18 kind SameCapture"),
]

# Less obvious cases: patterns of queries, with the place and the kind.
PLACES = [
    query(pattern, f"Pattern rule 1 at {place}")
    for pattern, place in [
        ("a{x}", "1 kind Lex"),
        ("a{,}", "1 kind Lex"),
        ("a{1001}", "1 kind Lex"),
        ("  ", "2 kind Expected"),
        (") %", "0 kind Expected"),
        ("[tag=NN", "7 kind Expected"),
        ("@a-b", "1 kind Expected"),
        ("(>x) a", "0 kind Expected"),
        ("a (b (>x)) c", "5 kind Expected"),
        ("a >x b | c", "7 kind Expected"),
        ("a >x*? b", "5 kind Expected"),
        ("a >x", "4 kind Expected"),
        ("[colour]", "1 kind UnknownField"),
        ("[x", "1 kind UnknownField"),
        ("[Tag=NN]", "1 kind UnknownField"),
        ("a >x [colour=red]", "6 kind UnknownField"),
        ("a{0}", "1 kind BadRange"),
        ('a >x{2,1} "b', "4 kind BadRange"),
        ("(a?){2,}?", "4 kind NullableRepeat"),
        ("(^ | a)+", "7 kind NullableRepeat"),
        ("(?<x>a) | (?<x>b)", "10 kind SameCapture"),
    ]
]

# Lines of rule files, with the line and the kind.
LINES = [
    grammar(text, f"Yaml line {fault}")
    for text, fault in [
        ("rules: ", "1 kind BadKey"),
        ("rules: # c", "1 kind BadKey"),
        ("\ufeffrules:", "1 kind BadKey"),
        ("rules:\nx: y", "2 kind BadKey"),
        ("rules:\n  x: y", "2 kind Item"),
        ("rules:\n-", "2 kind BadKey"),
        ("rules:\n- ", "2 kind BadKey"),
        ("rules:\n- name: a\n-", "3 kind Item"),
        ("rules:\n-  name: a", "2 kind BadKey"),
        ("rules:\n  - name: a\n- name: b", "3 kind BadKey"),
        ("- name: a", "1 kind BadKey"),
        ("vars:\n- name: a", "2 kind BadKey"),
        ("rules:\n- name: ", "2 kind BadScalar"),
        ('rules:\n- name:  "a"', "2 kind BadScalar"),
        ("rules:\n- name:  |", "2 kind BadScalar"),
        ("rules:\n- name: | ", "2 kind BadScalar"),
        ("rules:\n- name: | # c", "2 kind BadScalar"),
        ('rules:\n- name: "a" b', "2 kind BadScalar"),
        ('rules:\n- name: "a', "2 kind BadScalar"),
        ('rules:\n- name: "\\q"', "2 kind BadScalar"),
        ("rules:\n- name: 'a'", "2 kind BadScalar"),
        ("rules:\n- name: a: b", "2 kind BadScalar"),
        ("rules:\n- " + "k" * 65 + ": a", "2 kind BadKey"),
        ("rules:\n- pattern: |\n  a", "3 kind BadKey"),
    ]
]

# Event patterns, with the place and the kind.
EVENTS = [
    grammar(event(*lines), f"Pattern rule 1 at {place}")
    for lines, place in [
        (("",), "0 kind Expected"),
        (("trigger? = a",), "0 kind Expected"),
        (("trigger:N = a",), "0 kind Expected"),
        (("trigger a",), "0 kind Expected"),
        (("trigger = a", "x >d"), "12 kind Expected"),
        (("trigger = a", "x y = >d"), "12 kind Expected"),
        (("trigger = a", "x:1 = >d"), "12 kind Expected"),
        (("trigger = a", "x = ", "y >d"), "16 kind Expected"),
        (('trigger = a "b', '" c'), "12 kind Lex"),
    ]
]

# Documents.
DOCUMENTS = [
    document(b"#" * 1048577, 1, "TooLong"),
    document(word(1) + b"\n\xff\n", 3, "NotUtf8"),
    document(b"1\ta\t_\n", 1, "Columns"),
    document(word("01"), 1, "BadId"),
    document(word(2), 1, "IdOrder"),
    document(b"".join(word(n) for n in range(1, 2002)), 2001, "TooManyTokens"),
    document(word(1, form=""), 1, "EmptyForm"),
    document(word(1, head="x"), 1, "BadHead"),
    document(word(1, head="2"), 1, "HeadRange"),
    document(b"# x\n", 1, "Empty"),
]

ALL = SCRIPTS + FILES + RULES + LIMITS + PATTERNS + PLACES + LINES + EVENTS + DOCUMENTS
