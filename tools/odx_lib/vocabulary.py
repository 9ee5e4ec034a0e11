"""What the texts have: the values of each field, the relations, and what is odd in their trees."""
import collections

from . import conllu
from .told import Progress, place


class Vocabulary:
    """The different values of each field with their counts."""

    def __init__(self, paths):
        self.of = {field: collections.Counter() for field in ("word", "norm", "lemma", "upos", "tag", "entity", "chunk", "relation", "misc")}
        self.odd = []
        self.sentences = 0
        progress = Progress("sentences read")
        for _, _, path, sentence in conllu.all_sentences(paths):
            self.sentences += 1
            progress.add()
            self.take(sentence)
            if len(self.odd) < 20:
                self.odd += oddities(path, sentence)
        progress.end()

    def take(self, sentence):
        for token in sentence.tokens:
            self.of["word"][token.form] += 1
            for field, value in (("lemma", token.lemma), ("upos", token.upos), ("tag", token.tag)):
                if value not in ("_", ""):
                    self.of[field][value] += 1
            if token.head >= 0:
                self.of["relation"][token.relation or "_"] += 1
            if token.columns[9] != "_":
                self.take_misc(token)

    def take_misc(self, token):
        seen = set()
        for item in token.columns[9].split("|"):
            key, equals, value = item.partition("=")
            if not equals or key in seen:
                continue
            seen.add(key)
            field = {"Entity": "entity", "Chunk": "chunk"}.get(key)
            if field:
                self.of[field][value] += 1
            else:
                self.of["misc"][key] += 1

    def values(self, field):
        """The values of a field; norms are the folded words."""
        if field == "norm" and not self.of["norm"]:
            for word, count in self.of["word"].items():
                self.of["norm"][word.casefold()] += count
        return self.of[field]


def oddities(path, sentence):
    """What a tree should not have, and the program takes: a word that is its own head, no root."""
    out, roots = [], 0
    for number, token in enumerate(sentence.tokens):
        roots += token.columns[6] == "0"
        if token.head == number:
            out.append(f"{place(path, token.line)}: word {number + 1} ({token.form}) is its own head")
    if not roots and not out and any(token.head >= 0 for token in sentence.tokens):
        out.append(f"{place(path, sentence.line)}: no word of this sentence is the root (HEAD 0)")
    return out
