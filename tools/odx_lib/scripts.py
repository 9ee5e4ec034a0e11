"""Scripts that were written by hand: an N that is wrong, and orders that come too early or too late."""
import re
import tempfile

from . import answers, program, refusals, rulefile
from .told import place

ORDER = re.compile(r"(client|settle|(?:step|run|resume|print|release) \S+|open \S+ \S+ \d+|doc \S+ \d+)$")
HEAD = re.compile(r"(grammar \S+ \d+|query \S+ .+)$")


def is_script(path):
    """Whether the first line that says something is one of a script."""
    try:
        with open(path, "rb") as file:
            for raw in file.read(1 << 16).split(b"\n"):
                text = raw.decode("utf-8", "replace").lstrip("\ufeff").strip()
                if text and not text.startswith("#"):
                    return bool(ORDER.match(text) or HEAD.match(text))
    except OSError:
        pass
    return False


class Block:
    """A block of a script: its head's line, name, kind, N, and the lines that N takes."""

    def __init__(self, line, kind, name, count, lines):
        self.line, self.kind, self.name, self.count, self.lines = line, kind, name, count, lines


def blocks(lines):
    """Lines of the script as (number, text) and as blocks, in order, by each block's own N."""
    number = 0
    while number < len(lines):
        text = lines[number]
        number += 1
        found = re.match(r"(grammar|doc) (\S+) (\d+)$", text)
        if found:
            count = int(found.group(3))
            yield Block(number, found.group(1), found.group(2), count, lines[number : number + count])
            number += count
        else:
            yield number, text


def fitting(lines, block):
    """The N that fits a block: its lines up to the next line of a script."""
    count = 0
    for text in lines[block.line :]:
        row = text.split("\t")
        if ORDER.match(text) or block.kind == "grammar" and HEAD.match(text) and not text.startswith(" "):
            break
        if block.kind == "doc" and text and not text.startswith("#") and len(row) < 3:
            break
        count += 1
    return count


def findings(path):
    """Lines for the user on a script, in its order."""
    with open(path, "rb") as file:
        data = file.read()
    out = []
    if data.startswith(b"\xef\xbb\xbf"):
        out.append(f"{place(path, 1)}: a byte order mark stands before the first word: save the script as UTF-8 without it")
        data = data[3:]
    lines = [x[:-1] if x.endswith("\r") else x for x in data.decode("utf-8", "replace").split("\n")]
    if lines and not lines[-1]:
        lines.pop()
    opened, run, grammars = [], set(), {}
    for item in blocks(lines):
        if isinstance(item, Block):
            out += of_block(path, lines, item, opened)
            if item.kind == "grammar":
                grammars[item.name] = item
        else:
            out += of_order(path, item[0], item[1], opened, run)
    return out


def of_block(path, lines, block, opened):
    """Where N does not fit, and documents that no session sees."""
    fits = fitting(lines, block)
    out = []
    said = lines[block.line - 1]
    empty = fits - block.count == 1 and not (lines[block.line + block.count] if block.line + block.count < len(lines) else "x")
    if fits != block.count and not empty and not only_blank(lines[block.line + min(fits, block.count) : block.line + max(fits, block.count)]):
        out.append(f"{place(path, block.line)}: `{said}`: {fits} lines stand behind it, and N is {block.count}")
    if block.kind == "doc" and opened:
        out.append(f"{place(path, block.line)}: warning: session {opened[0]} was opened before this document, and does not see it")
    return out


def only_blank(lines):
    return all(not line.strip() for line in lines)


def of_order(path, number, text, opened, run):
    """Orders in a shape or at a place where they do not do what they seem to."""
    if not text or text.startswith("#"):
        return []
    words = text.split(" ")
    if text != text.strip() and (ORDER.match(text.strip()) or HEAD.match(text.strip())):
        return [f"{place(path, number)}: blanks stand before or behind the order `{text.strip()}`"]
    if words[0] == "open" and len(words) == 4:
        opened.append(words[1])
        if not re.fullmatch(r"[0-9]{1,9}", words[3]) or not 1 <= int(words[3]) <= 100:
            return [f"{place(path, number)}: a session has 1 to 100 rounds, and this one {words[3]}"]
    elif words[0] in ("run", "step"):
        run.add(words[-1])
    elif words[0] == "print" and words[-1] not in run:
        return [f"{place(path, number)}: warning: session {words[-1]} is printed before it ran (`run {words[-1]}` is missing)"]
    return []


def program_lines(path, done, entries):
    """What the program said of the script, in the script's own lines."""
    out = []
    with open(path, "rb") as file:
        lines = file.read().decode("utf-8", "replace").split("\n")
    found = re.match(r"odinson: script line (\d+): (\w+)", done.diagnostic.strip())
    if found:
        number, kind = int(found.group(1)), found.group(2)
        text = lines[number - 1].rstrip("\r") if 0 < number <= len(lines) else ""
        out.append(f"{place(path, number)}: this is no line of a script ({kind})")
        out.append("  " + text.replace("\t", "\u2192"))
        out.append("  " + line_hint(kind, text))
    elif done.diagnostic.strip():
        out += grammar_fault(path, lines, done.diagnostic.strip())
    for entry in entries:
        out += refused_entry(path, lines, entry)
    return out


def line_hint(kind, text):
    words = text.split(" ")
    if kind == "BadWord":
        if "\t" in text:
            return "a line of a text stands where an order should: N of the `doc` above is too small"
        if re.match(r"\s*(- )?\w+:( |$)", text) or re.match(r"\s*\w+(:\w+)?[?*+]? = ", text):
            return "a line of a rule file stands where an order should: N of the `grammar` above is too small"
        if text.startswith("\ufeff"):
            return "a byte order mark stands here: save the script without it"
        if text != text.lstrip():
            return "an order begins at the first column"
        return "no order begins so; is N of the block above right? The orders: grammar query client doc open step run resume print release settle"
    if kind == "Shape":
        return "too few or too many words, or a blank at the end: " + {"doc": "doc NAME N", "open": "open SESSION GRAMMAR LIMIT", "query": "query NAME PATTERN", "grammar": "grammar NAME N"}.get(words[0], f"{words[0]} SESSION")
    if kind == "ShortBlock":
        return "fewer lines are left than N says: N of this block is too large"
    return refusals.SCRIPT_HINTS.get(kind, kind)


def grammar_fault(path, lines, diagnostic):
    """A refused grammar of a script, shown at the script's lines."""
    found = re.match(r"odinson: grammar (\S+):", diagnostic)
    for item in blocks([x.rstrip("\r") for x in lines]):
        if isinstance(item, Block) and found and item.kind == "grammar" and item.name == found.group(1):
            grammar = rulefile.Grammar(path, "\n" * item.line + "\n".join(item.lines) + "\n")
            rulefile.read_lines(grammar)
            shifted = re.sub(r"Yaml line (\d+)", lambda x: f"Yaml line {int(x.group(1)) + item.line}", diagnostic)
            return refusals.Reader([grammar], [item.name]).lines(shifted)
        if not isinstance(item, Block) and found and item[1].startswith(f"query {found.group(1)} "):
            grammar = rulefile.query(item[1].split(" ", 2)[2])
            told = refusals.Reader([grammar], [found.group(1)]).lines(diagnostic)
            return [f"{place(path, item[0])}: query {found.group(1)}"] + told
    return [diagnostic]


REPLIES = {
    "NoGrammar": "the script has no grammar of this name", "BadLimit": "a session has 1 to 100 rounds", "Taken": "a session has this name already",
    "NoSession": "there is no session of this name; was its `open` refused, or taken into the block of a `doc` whose N is too large?",
    "Busy": "another client holds the session: it says `release`, and this one `resume`", "NotHeld": "nobody holds the session: say `resume` first",
    "Finished": "the session is finished; one `run` is enough", "AtLimit": "the session has had all its rounds", "Duplicate": "a document has this name already",
}


def refused_entry(path, lines, entry):
    reply = entry["reply"]
    if reply == "BadDoc":
        for item in blocks([x.rstrip("\r") for x in lines]):
            if isinstance(item, Block) and item.kind == "doc" and item.name == entry["name"]:
                number = item.line + entry["line"]
                text = lines[number - 1] if number <= len(lines) else ""
                hint = refusals.document_hint(entry["kind"], text.encode())
                return [f"{place(path, number)}: document {item.name} is no CoNLL-U ({entry['kind']})", "  " + text.replace("\t", "\u2192"), "  " + hint]
    return [f"{path}: `{entry['command']} {entry.get('name', '')}` of client {entry.get('caller')} is refused ({reply}): {REPLIES.get(reply, 'see FORMATS')}"]


def word(arguments, path):
    """`odx check SCRIPT`."""
    said = findings(path)
    binary = program.found(arguments.program)
    status = 1 if said else 0
    if binary:
        with tempfile.TemporaryDirectory(prefix="odx.") as folder:
            done = program.run(binary, path, folder)
            refused = [x for _, x in answers.lines(done.output) if "command" in x and x["reply"] != "ok"]
            told = program_lines(path, done, refused[:10])
            status = 2 if told else status
            said = told + said
    for line in said:
        print(line)
    return status

