#!/usr/bin/env python3
"""Writes the tables of crates in docs/ARCHITECTURE.md from crates.txt and the crates' folders.

    python3 tests/pages/crates.py            writes the tables anew
    python3 tests/pages/crates.py --check    says whether the page has them as they are; status 1 where not
    python3 tests/pages/crates.py --lines    prints lines of code, tests, definitions and proofs, with the sums

Run it at the top of the repository. The tables stand between two comments, `<!-- crates -->` and
`<!-- end of crates -->`; what stands between these is replaced."""

import pathlib
import sys

TOP = pathlib.Path(__file__).resolve().parents[2]
PAGE = TOP / "docs" / "ARCHITECTURE.md"
BEGIN, END = "<!-- crates -->\n", "<!-- end of crates -->\n"


def read_crates():
    """The layers in their order: a title, and crates, each with what it holds and what it lists."""
    layers, comment = [], ""
    for line in (TOP / "crates.txt").read_text().splitlines():
        if line.startswith("## "):
            layers.append((line[3:], []))
        elif line.startswith("# "):
            comment = line[2:]
        elif line.strip():
            head, lists = line.split(":")
            layers[-1][1].append((head.split()[0], comment, lists.split()))
    return layers


def lines_of(crate):
    """Lines that are neither blank nor a comment: code, tests, definitions, proofs; and must-fail edits."""
    folder = TOP / "crates" / crate

    def count(paths):
        texts = (path.read_text().splitlines() for path in paths)
        return sum(
            1
            for text in texts
            for line in text
            if line.strip() and not line.strip().startswith(("//", "--"))
        )

    sources = sorted(folder.glob("src/**/*.rt"))
    tests = [path for path in sources if path.stem == "tests" or crate.endswith("_tests")]
    code = [path for path in sources if path not in tests]
    edits = len(list(folder.glob("must-fail/*.edit")))
    return (
        count(code),
        count(tests),
        count(folder.glob("specs/**/*.antt")),
        count(folder.glob("proofs/**/*.antt")),
        edits,
    )


def short(names):
    return ", ".join(name.removeprefix("od_") for name in names)


def tables(layers):
    """The tables of all layers, as the page has them."""
    lists = {name: uses for _, crates in layers for name, _, uses in crates}
    named_by = {name: [other for other in lists if name in lists[other]] for name in lists}

    def above(name, found):
        for other in named_by[name]:
            if other not in found:
                found.add(other)
                above(other, found)
        return found

    out = []
    for title, crates in layers:
        out.append(f"\n**{title}**\n\n")
        out.append("| Crate | Holds | Lists | Named by | Proved again | Edits |\n|---|---|---|---|---|---|\n")
        for name, holds, uses in crates:
            own = short([use for use in uses if use in lists])
            kit = ", ".join(f"`{use}`" for use in uses if use not in lists)
            listed = "; ".join(part for part in (own, kit) if part)
            names = short(named_by[name]) or "nobody"
            holds = holds[:1].lower() + holds[1:].rstrip(".")
            again = len(above(name, set()))
            edits = lines_of(name)[4]
            out.append(f"| `{name}` | {holds} | {listed} | {names} | {again} | {edits} |\n")
    return "".join(out)


def print_lines(layers):
    sums = [0] * 5
    print("crate code tests definitions proofs edits")
    for _, crates in layers:
        for name, _, _ in crates:
            counts = lines_of(name)
            sums = [a + b for a, b in zip(sums, counts)]
            print(name, *counts)
    print("all", *sums)


def main():
    layers = read_crates()
    if "--lines" in sys.argv[1:]:
        print_lines(layers)
        return 0
    page = PAGE.read_text()
    begin, end = page.index(BEGIN) + len(BEGIN), page.index(END)
    new = page[:begin] + tables(layers) + "\n" + page[end:]
    if "--check" in sys.argv[1:]:
        if new != page:
            print("docs/ARCHITECTURE.md: the tables of crates are not those of crates.txt", file=sys.stderr)
            return 1
        return 0
    PAGE.write_text(new)
    return 0


if __name__ == "__main__":
    sys.exit(main())
