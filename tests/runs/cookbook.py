"""The recipes of the cookbook: a folder each, with a grammar, a text and what is found; and the page that shows them."""
import json
import os
import subprocess
import sys

HERE = os.path.dirname(os.path.abspath(__file__))
TOP = os.path.join(HERE, "..", "..")
FOLDER = os.path.join(HERE, "cookbook")
PAGE = os.path.join(TOP, "docs", "COOKBOOK.md")


def read(*path):
    with open(os.path.join(*path), "rb") as file:
        return file.read()


def script(folder):
    """The script of a recipe: its grammar, its text, one session of at most 10 rounds."""
    grammar, text = read(folder, "grammar.yml"), read(folder, "text.conllu")
    head = b"grammar g %d\n%sclient\ndoc d %d\n%s" % (grammar.count(b"\n"), grammar, text.count(b"\n"), text)
    return head + b"open s g 10\nrun s\nprint s\n"


def found(output):
    """The mentions of an output as the page has them: as `odx show --list` writes them, without the document."""
    out = []
    for line in output.splitlines():
        m = json.loads(line)
        if "command" in m:
            continue
        arguments = [f"{x['name']}{':' + x['label'] if x['label'] else ''}={x['text']}" for x in m["arguments"]]
        out.append(f"{m['sentence']} {m['label']} {m['text']}[{'; '.join(arguments)}]\n")
    return "".join(out)


def enriched(folder):
    """What `odx enrich` makes of the plain text, where the recipe has one."""
    words = read(folder, "enrich").decode().split()
    done = subprocess.run([sys.executable, os.path.join(TOP, "tools", "odx"), "enrich", *words, "plain.conllu"], cwd=folder, capture_output=True)
    return done.stdout


def tried(program):
    """Each recipe: its name, and what is wrong with it or nothing."""
    page = read(PAGE).decode()
    for name in sorted(os.listdir(FOLDER)):
        folder = os.path.join(FOLDER, name)
        done = subprocess.run([program, "serve"], input=script(folder), capture_output=True, timeout=120)
        wanted = read(folder, "found").decode()
        wrong = None
        if done.returncode or found(done.stdout) != wanted:
            wrong = f"status {done.returncode}, {done.stderr.decode()}found\n{found(done.stdout)}"
        elif f"```yaml\n{read(folder, 'grammar.yml').decode()}```" not in page or f"```text\n{wanted}```" not in page:
            wrong = "docs/COOKBOOK.md has another grammar, or another list of what is found"
        elif os.path.exists(os.path.join(folder, "enrich")) and enriched(folder) != read(folder, "text.conllu"):
            wrong = "`odx enrich` makes another text of plain.conllu"
        yield name, wrong
