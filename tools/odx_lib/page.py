"""The page of `odx show --html`: each sentence drawn with its arcs, mentions and arguments, and filtered. No network."""
import collections
import html
import json
import os

from .told import Told, note, of

MOST = 5000
HERE = os.path.dirname(os.path.abspath(__file__))


def drawn(texts, mentions, everything):
    """The sentences as the page takes them: with mentions alone, or all."""
    rows, left = [], 0
    for document in texts.documents():
        for number in range(texts.count(document)):
            found = mentions.get((document, number))
            if not found and not everything:
                continue
            if len(rows) == MOST:
                left += 1
                continue
            sentence = texts.sentence(document, number)
            rows.append({
                "d": document, "n": number, "i": sentence.sent_id or str(number), "x": sentence.text,
                "w": [[t.form, t.lemma, t.upos, t.tag] for t in sentence.tokens],
                "h": [t.head for t in sentence.tokens], "r": [t.relation for t in sentence.tokens],
                "root": [k for k, t in enumerate(sentence.tokens) if t.columns[6] == "0"],
                "m": found or [],
            })
    return rows, left


def write(path, reading, texts, everything):
    mentions = collections.defaultdict(list)
    for m in reading.mentions():
        found = [[x["name"], x["start"], x["end"], x.get("label")] for x in m["arguments"]]
        mentions[m["document"], m["sentence"]].append([m["label"], m["rule"], m["start"], m["end"], found])
    rows, left = drawn(texts, mentions, everything)
    data = json.dumps(rows, ensure_ascii=False, separators=(",", ":")).replace("<", "\\u003c").replace("\u2028", "\\u2028")
    with open(os.path.join(HERE, "page.html"), encoding="utf-8") as file:
        form = file.read()
    title = html.escape(", ".join(os.path.basename(x) for x in texts.paths[:3]))
    try:
        with open(path, "w", encoding="utf-8") as file:
            file.write(form.replace("TITLE_HERE", title, 2).replace("DATA_HERE", data, 1))
    except OSError as fault:
        raise Told(f"{path}: {fault.strerror}; --html names the page to write")
    note(f"{path}: {of(len(rows), 'sentence')}" + (f"; {left:,} more have no room on one page: filter by --label or --rule" if left else ""))
