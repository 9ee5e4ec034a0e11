"""The program's refusals, shown in the user's own files, with the cause where it can be told and what to do."""
import difflib
import re

from . import conllu, patterns, rulefile
from .told import place, visible

FIELD_HINTS = {
    "pos": "upos or tag", "xpos": "tag", "form": "word", "deprel": "incoming", "rel": "incoming", "text": "word",
    "ner": "entity", "feats": "no field has FEATS: `odx enrich --feats` puts it behind tag", "token": "word", "tok": "word",
}
YAML_HINTS = {
    "Tab": "a rule file is indented by spaces: put spaces in place of the tab",
    "Indent": "the keys of a rule stand below its first key, all variables at one column, and all `- ` at one column",
    "Item": "under `rules:` each rule begins with `- `, at one column",
    "SameKey": "this key stands there already: a rule has each key once",
    "NoRules": "a rule file has `rules:` and under it at least one rule, as in `- name: a`",
}
DOCUMENT_HINTS = {
    "TooLong": "a document has at most 1 MiB, and this sentence alone is longer",
    "NotUtf8": "these bytes are not UTF-8: save the file as UTF-8",
    "BadId": "an ID is 1, 2, 3.., a range as 1-2, or an empty node as 1.1",
    "IdOrder": "the ID is not the next one: is the empty line between two sentences missing?",
    "TooManyTokens": "a sentence has at most 2,000 words: is the empty line between two sentences missing?",
    "EmptyForm": "the second column, FORM, is empty: write _ where there is none",
    "BadHead": "the seventh column, HEAD, is neither a number nor _",
    "HeadRange": "the seventh column, HEAD, is greater than the number of words of this sentence",
    "Empty": "there is no sentence: each word is a line of ten columns between tabs",
}
SCRIPT_HINTS = {
    "TooLong": "a script has at most 64 MiB: `odx script --shards N` makes several",
    "NotUtf8": "this line is not UTF-8",
    "LateHead": "grammars and queries stand before the first `client`",
    "NoClient": "orders stand behind a line `client`; or N of the block before this line is too small",
    "BadName": "a name is 1 to 64 of the signs A-Z a-z 0-9 _ . -",
    "BadNumber": "a number has no leading zero and at most nine digits",
    "SameHead": "a grammar has this name already",
    "TooMany": "at most 16 grammars, 8 clients and 10,000 orders",
}


def near(text, known, most=3):
    """Texts like this one, for a user who mistyped it."""
    close = difflib.get_close_matches(text, known, most, 0.5)
    folded = [x for x in known if x.casefold() == text.casefold()]
    return list(dict.fromkeys(folded + close))


def near_words(text, known):
    found = near(text, [x for x in known if x])
    return f"; near: {', '.join(found)}" if found else ""


def caret(grammar, placed, at):
    """The user's line with a caret under the character; for one from a variable the replaced text as well."""
    line, column, variable = placed.place(at)
    out = []
    text = grammar.lines[line - 1].rstrip("\r") if line <= len(grammar.lines) else ""
    out.append("  " + text)
    out.append("  " + blanks(text, column) + "^")
    if variable:
        begin = placed.text.rfind("\n", 0, at) + 1
        end = placed.text.find("\n", at)
        whole = placed.text[begin : end if end >= 0 else len(placed.text)]
        out.append(f"  in variable {variable}; with variables replaced:")
        out.append("  " + whole)
        out.append("  " + blanks(whole, at - begin) + "^")
    return out


def blanks(text, column):
    return "".join("\t" if x == "\t" else " " for x in text[:column]) + " " * max(0, column - len(text))


def head_line(grammar, line, what):
    return f"{grammar.shown}: {what}" if grammar.is_query else f"{place(grammar.path, line)}: {what}"


class Reader:
    """Finds the grammar of a diagnostic and tells its fault."""

    def __init__(self, grammars, names):
        self.grammars = dict(zip(names, grammars))

    def lines(self, diagnostic):
        """What is said of a diagnostic, in lines."""
        diagnostic = diagnostic.strip()
        found = re.match(r"odinson: grammar (\S+): (.*)$", diagnostic)
        if not found or found.group(1) not in self.grammars:
            return [diagnostic]
        grammar, fault = self.grammars[found.group(1)], found.group(2)
        for form, tell in TOLD:
            match = re.match(form, fault)
            if match:
                return tell(grammar, *match.groups())
        return [head_line(grammar, 1, fault)]


def yaml_fault(grammar, line, kind):
    number = int(line)
    text = grammar.lines[number - 1].rstrip("\r") if number <= len(grammar.lines) else ""
    told = {"BadScalar": bad_scalar, "BadKey": bad_key}.get(kind)
    column, hint = told(text) if told else (len(text) - len(text.lstrip()), YAML_HINTS[kind])
    return [head_line(grammar, number, f"the rule file cannot be read here ({kind})"), "  " + text, "  " + blanks(text, column) + "^", "  " + hint]


def bad_scalar(text):
    """Where a value is no scalar, and what it should be."""
    found = re.match(r"( *(?:- +)?\w+: )(.*)$", text)
    if not found:
        return 0, "behind a key stands a text"
    column, value = len(found.group(1)), found.group(2)
    body = value.strip()
    quoted = 'put the text between double quotes, or write `|` here and the text on the next lines, indented'
    if not body:
        return column, "the value is missing"
    if body.startswith("'"):
        return column, "there are no single quotes here: " + quoted
    if body.startswith('"'):
        wrong = re.search(r'^"(?:[^"\\]|\\["\\nt])*(\\[^"\\nt])', body)
        if wrong:
            return column + value.index(body) + wrong.start(1), "between double quotes a backslash is written twice: \\\\"
        if not re.match(r'"(?:[^"\\]|\\.)*"', body):
            return column, "the closing double quote is missing"
        return column, "behind the closing quote stand blanks or a comment, and nothing else"
    if body[0] in "|>":
        return column, "a text of several lines begins with | or |- alone, without + or > or anything behind it"
    if ": " in body and body[0] not in "[]{},&*!|>'\"%@`#":
        return column + value.index(": "), "a text with `: ` in it needs quotes: " + quoted
    return column, f"a text that begins with {body[0]} needs quotes: " + quoted


def bad_key(text):
    body = text.lstrip()
    column = len(text) - len(body)
    if text.startswith("---"):
        return 0, "a rule file has no `---`: it begins with `vars:` or `rules:`"
    if text.startswith("\ufeff"):
        return 0, "a byte order mark stands here: save the file as UTF-8 without it"
    if re.match(r"(vars|rules):", text):
        return len(text.split(":")[0]) + 1, "behind `vars:` and `rules:` stands nothing, no blank either"
    found = re.match(r"( *(?:- +)?\w+:)(\S)", text)
    if found:
        return len(found.group(1)), "behind the colon of a key stands one space"
    if re.match(r" *(- +)?\w+:$", text):
        return len(text), "the value is missing: behind the colon stand a space and a text"
    if text[:1].strip() and ":" in text:
        return 0, "only `vars:` and `rules:` begin at the first column"
    return column, "here stands a key, a colon, one space and a text, as in `label: Animal`"


def of_rule(grammar, number):
    return grammar.rule(int(number)) or rulefile.Rule(1)


def name_of(rule):
    return f"rule {rule.name}"


def unknown_key(grammar, number):
    rule = of_rule(grammar, number)
    for key in rule.keys:
        if key not in rulefile.KEYS:
            line = rule.key_lines.get(key, rule.line)
            odin = " (Odin's actions and the like are not known)" if key in ("action", "unit", "keep", "example", "graph") else ""
            hint = f"  no key is {key}{odin}{near_words(key, rulefile.KEYS)}; the keys are {', '.join(rulefile.KEYS)}"
            return [head_line(grammar, line, f"{name_of(rule)} has an unknown key"), "  " + grammar.lines[line - 1].rstrip("\r"), hint]
    return [head_line(grammar, rule.line, f"{name_of(rule)} has an unknown key")]


def missing_key(grammar, number):
    rule = of_rule(grammar, number)
    missing = [key for key in rulefile.KEYS if key not in rule.keys and key != "priority"]
    return [head_line(grammar, rule.line, f"{name_of(rule)} has no {' and no '.join(missing)}")]


BAD_KEYS = {
    "BadName": ("name", "a name has 1 to 64 bytes"),
    "SameName": ("name", "an earlier rule has this name; two rules may have one label, and never one name"),
    "BadLabel": ("label", "a label is a letter or _, then letters, digits and _"),
    "BadType": ("type", "the type is basic (one pattern) or event (trigger = .. and arguments)"),
    "BadPriority": ("priority", "the rounds are 2, 2-4 or 2+, from 1 to 100"),
}


def bad_value(grammar, kind, number):
    rule, (key, hint) = of_rule(grammar, number), BAD_KEYS[kind]
    line = rule.key_lines.get(key, rule.line)
    return [head_line(grammar, line, f"{name_of(rule)}: this is no {key}: {rule.text(key)!r}" if kind != "SameName" else f"two rules are named {rule.name}"), "  " + hint]


def unknown_variable(grammar, number):
    rule, seen = of_rule(grammar, number), set()
    waiting = [rule.keys.get("pattern", rulefile.Placed())]
    while waiting:
        placed = waiting.pop(0)
        for found in rulefile.VARIABLE.finditer(placed.text):
            name = found.group(1)
            if name not in grammar.variables:
                line = placed.place(found.start())[0]
                hint = "  a query has no variables" if grammar.is_query else f"  no variable is {name}{near_words(name, grammar.variables)}"
                return [head_line(grammar, line, f"{name_of(rule)} names a variable that is not there")] + caret(grammar, placed, found.start() + 2) + [hint]
            if name not in seen:
                seen.add(name)
                waiting.append(grammar.variables[name])
    return [head_line(grammar, rule.line, f"{name_of(rule)} names a variable that is not there")]


def unknown_label(grammar, number):
    rule = of_rule(grammar, number)
    placed = grammar.expanded(rule)
    labels = {x.label for x in grammar.rules}
    for ask in patterns.asked(placed.text, rule.is_event):
        if ask.field == "label" and ask.lexeme.text not in labels:
            text = ask.lexeme.text
            line = placed.place(ask.at)[0]
            hint = f"  no rule has the label {text}{near_words(text, labels)}"
            return [head_line(grammar, line, f"{name_of(rule)} names a label that no rule has")] + caret(grammar, placed, ask.at) + [hint]
    return [head_line(grammar, rule.line, f"{name_of(rule)} names a label that no rule has")]


def regex_refused(grammar, number, which):
    rule, seen = of_rule(grammar, number), []
    for other in grammar.rules:
        placed = grammar.expanded(other)
        for text, at in patterns.expressions(placed.text, other.is_event):
            if text not in seen:
                seen.append(text)
                if len(seen) == int(which):
                    line = placed.place(at)[0]
                    told = [head_line(grammar, line, f"{name_of(other)}: the crate regex does not take /{text}/")]
                    return told + caret(grammar, placed, at) + ["  " + why_refused(text)]
    return [head_line(grammar, rule.line, f"{name_of(rule)}: a regular expression is refused (number {which} of the grammar)")]


def why_refused(text):
    if re.search(r"\(\?<?[=!]", text):
        return "an expression has no look-ahead and no look-behind; outside of it (?=..), (?!..), (?<=..), (?<!..) test a whole token"
    if re.search(r"\\[1-9]", text):
        return "an expression has no back reference"
    try:
        re.compile(text)
    except re.error as fault:
        return f"{fault.msg}, at character {fault.pos}" if fault.pos is not None else fault.msg
    return "see the syntax of the crate regex: no look-around, no back references"


def limit(grammar, which, most):
    hints = {
        "GrammarBytes": "the rule file is too long: give its rules to two grammars",
        "Rules": "give the rules to two grammars",
        "Vars": "variables that are used once can be written out",
        "Regexes": "all grammars of a script have these together: run them one by one, or write /a|b/ for two expressions; "
        "for a long list of words see `odx enrich --list`",
        "PatternBytes": "variables are replaced before this is counted; for a long list of words see `odx enrich --list`",
    }
    return [head_line(grammar, 1, f"the limit is passed: at most {int(most):,} {which}"), "  " + hints.get(which, "")]


def cycle(grammar, name):
    placed = grammar.variables.get(name, rulefile.Placed())
    line = placed.place(0)[0]
    return [head_line(grammar, line, f"variable {name} stands within itself"), "  " + grammar.lines[line - 1].rstrip("\r")]


def pattern_fault(grammar, number, at, kind):
    rule = of_rule(grammar, number)
    placed = grammar.expanded(rule)
    at = placed.at_byte(int(at))
    line = placed.place(at)[0]
    said = {
        "Lex": "nothing that the language knows begins here",
        "Expected": "the pattern cannot go on, or end, here",
        "UnknownField": "no field of a token has this name",
        "BadRange": "the least is above the most, or the most is 0",
        "NullableRepeat": "a repeat without end of something that may be nothing",
        "SameCapture": "this name stands twice",
        "RegexLong": "an expression of more than 200 bytes",
        "TooDeep": "more than 100 brackets are open",
        "TooBig": "the pattern's size is above 10,000: smaller numbers in {..}",
    }.get(kind, kind)
    hint = pattern_hint(rule, placed.text, at, kind)
    told = [head_line(grammar, line, f"{name_of(rule)}: {said} ({kind})")] + caret(grammar, placed, at)
    return told + (["  " + hint] if hint else [])


def pattern_hint(rule, text, at, kind):
    """What to do, told from the signs around the place."""
    front, rest = text[:at], text[at:]
    line = text[text.rfind("\n", 0, at) + 1 :].split("\n")[0]
    if kind == "UnknownField":
        return field_hint(front, rest)
    if kind == "SameCapture":
        return "captures and arguments of one rule have different names"
    if kind == "RegexLong":
        return "take two expressions with | between; for a long list of words see `odx enrich --list`"
    if kind == "NullableRepeat":
        return "(a?)+ is a*"
    if kind == "Lex":
        return lex_hint(rest)
    if kind == "Expected":
        return type_hint(rule, text, at) or expected_hint(rule, front, rest, line)
    return ""


def field_hint(front, rest):
    name = re.match(r"[\w:-]*", rest).group()
    inside = front[front.rfind("[") :]
    if re.search(r"=[^=&]*\|\s*$", inside):
        field = re.findall(r"(\w+)\s*=", inside)[-1]
        return f"each alternative is a constraint of its own: [{field}=a | {field}=b], or one expression: [{field}=/a|b/]"
    fields = ", ".join(patterns.FIELDS)
    wanted = FIELD_HINTS.get(name.casefold())
    if wanted is None:
        found = near(name, patterns.FIELDS)
        wanted = found[0] if found else None
    return f"the fields are {fields}" + (f"; for {name} take {wanted}" if wanted else "")


def lex_hint(rest):
    sign = rest[:1]
    if sign == "#":
        return "a pattern has no comments, in a `|` text neither: comments stand on lines of their own outside of it"
    if sign == "'" or sign == '"':
        return f"the closing {sign} is missing; a word with an apostrophe stands between double quotes: \"'s\", \"n't\""
    if sign == "/":
        return "the closing / is missing"
    if sign == "{":
        return "a repeat is {2}, {2,3}, {2,} or {,3}, without blanks"
    return f"punctuation stands between quotes: '{sign}'; a word with it as a whole, as '1,000'; an expression between slashes, as /a.*/"


def type_hint(rule, text, at):
    if not rule.is_event and re.match(r"\s*trigger\s*=", text):
        return "this is the pattern of an event, and the rule's type says basic: write `type: event`"
    if rule.is_event and not re.match(r"\s*trigger\s*=", text):
        return "an event's pattern begins with `trigger = ..`; for one pattern write `type: basic`"
    return ""


def expected_hint(rule, front, rest, line):
    last = front.rstrip()[-1:]
    if rule.is_event and not front.rstrip(" ").strip("\n").endswith("=") and rest.startswith(line) and line:
        if line.lstrip().startswith("#"):
            return "a pattern has no comments, in a `|` text neither: put the line outside of it"
        if "=" not in line:
            return "each line of an event is `name = path`; one argument is one line"
        return "before `=` stand one name, perhaps `:Label`, perhaps one of ? * +, as in `bought:Org+ = >obj`"
    if front.endswith("/") and re.match(r"[a-z]+\b", rest):
        return "an expression has no flags behind it: write (?i) at its beginning, as in /(?i)acme/"
    if rest.startswith("$"):
        return "a value with $ stands between quotes: [tag='PRP$']"
    if re.search(r"\(\?<?[=!]\s*$", front):
        return "a look holds one constraint: (?<![lemma=not]), (?=[upos=VERB])"
    if rest.startswith("!="):
        return "not equal is [!lemma=a]"
    if rest.startswith("="):
        return "one = between field and value"
    if rest[:1] in "&|" and last == rest[:1]:
        return f"one {rest[:1]} and not two"
    if rest.startswith("|"):
        return "behind or before steps alternatives stand in brackets: (a | b) >x c, a >x (b | c); or make two rules"
    if rule.is_event and re.match(r"[\w\"'/]", rest):
        return "a path ends at a token; to test that token write a constraint: >obj [lemma=bolt]"
    if not rest.strip():
        return "the pattern ends too early; a hop ends with a pattern: [] is any token" if re.search(r"[<>]\s*\S*$", front) else "something is missing at the end, perhaps a closing bracket"
    if rest.startswith("!"):
        return "`!` stands within [..] only, as in [!outgoing=neg]; that no arc leads somewhere cannot be asked otherwise"
    return ""


TOLD = [
    (r"Yaml line (\d+) kind (\w+)", yaml_fault),
    (r"Pattern rule (\d+) at (\d+) kind (\w+)", pattern_fault),
    (r"UnknownKey rule (\d+)", unknown_key),
    (r"MissingKey rule (\d+)", missing_key),
    (r"(BadName|SameName|BadLabel|BadType|BadPriority) rule (\d+)", bad_value),
    (r"UnknownVar rule (\d+)", unknown_variable),
    (r"UnknownLabel rule (\d+)", unknown_label),
    (r"RegexRefused rule (\d+) number (\d+)", regex_refused),
    (r"VarCycle var (\S+)", cycle),
    (r"Limit which (\w+) limit (\d+)", limit),
]


def document_lines(entry, paths):
    """What is said of a document that the program refused."""
    for piece in conllu.all_pieces(paths):
        if piece.name == entry.get("name"):
            rows = conllu.lines_of(piece.text)
            number = entry.get("line", 1)
            row = rows[number - 1] if 0 < number <= len(rows) else b""
            kind = entry.get("kind", "")
            told = [f"{place(piece.path, piece.line + number - 1)}: this is no CoNLL-U ({kind})"]
            if kind != "TooLong" and row.strip(b"\r\n"):
                told.append("  " + visible(row))
            return told + ["  " + document_hint(kind, row)]
    return [f"document {entry.get('name')} is refused: {entry.get('kind')} in its line {entry.get('line')}"]


def document_hint(kind, row):
    if kind != "Columns":
        return DOCUMENT_HINTS.get(kind, kind)
    text = row.decode("utf-8", "replace").rstrip("\r\n")
    count = text.count("\t") + 1
    if not text.strip():
        return "this line has blanks; the line between two sentences is empty"
    if re.match(r"(open|step|run|print|release|resume|settle|client|doc)( |$)", text):
        return "this is an order of the script: N of the document is too large"
    if count == 1 and len(re.split(r" {2,}| ", text)) >= 10:
        return "blanks stand between the columns in place of tabs"
    return f"the line has {count} column{'s' * (count != 1)} between tabs (\u2192), and must have 10"


def session_lines(entry, grammars):
    """What is said of a round that was refused."""
    reply = entry.get("reply")
    if reply == "TooMany":
        return [
            "too much is found: a session holds mentions and arguments up to 100,000 together, and this round found more",
            "  take more and smaller scripts (--shards N), or a rule that finds less",
        ]
    if reply == "Crowded":
        number = re.fullmatch(r"s([0-9]+)", entry.get("name", ""))
        grammar = grammars[int(number.group(1)) - 1 if number and int(number.group(1)) <= len(grammars) else 0]
        rule = grammar.rule(entry.get("rule", 1))
        what = f"rule {rule.name}" if rule else "a rule"
        return [head_line(grammar, rule.line if rule else 1, f"{what} finds more than 10,000 on one sentence (document number {entry.get('document')}, sentence {entry.get('sentence')})")]
    return []
