"""The program's output: lines of entries and of mentions, read one at a time."""
import json
import os
import sys

from .told import Told, visible

MENTION = {"arguments": list, "document": str, "end": int, "label": str, "rule": str, "sentence": int, "session": str, "start": int, "text": str}
ARGUMENT = {"end": int, "name": str, "start": int, "text": str}


def is_shaped(value, keys):
    return isinstance(value, dict) and all(isinstance(value.get(key), kind) for key, kind in keys.items())


def is_mention(value):
    return is_shaped(value, MENTION) and all(is_shaped(argument, ARGUMENT) for argument in value["arguments"])


def lines(path):
    """The lines of an output as (number, value): mentions, and entries, which have a `command`."""
    if path == "-":
        yield from values("standard input", sys.stdin.buffer)
        return
    try:
        if os.path.isdir(path):
            raise Told(f"{path}: this is a folder; name the outputs in it")
        with open(path, "rb") as file:
            yield from values(path, file)
    except OSError as fault:
        raise Told(f"{path}: {fault.strerror}; an output is what the program wrote for a script")


def values(path, file):
    for number, raw in enumerate(file, 1):
        try:
            value = json.loads(raw)
        except (ValueError, RecursionError):
            value = None
        if not (is_mention(value) or isinstance(value, dict) and "command" in value and "reply" in value):
            raise Told(
                f"{path}:{number}: this is no line that the program writes: {visible(raw, 60)}",
                "  an output is what `odinson_cli serve < script` wrote, or `odx run --json`",
            )
        yield number, value


def mentions(paths, refused=None):
    """The mentions of the outputs; entries that were refused are given to `refused`."""
    for path in paths:
        for _, value in lines(path):
            if "command" not in value:
                yield value
            elif value["reply"] != "ok" and refused is not None:
                refused(path, value)


def with_rounds(path):
    """The mentions of an output, each with the round that added it."""
    added, seen = {}, {}
    for _, value in lines(path):
        if "command" not in value:
            session = value["session"]
            number = seen[session] = seen.get(session, 0) + 1
            total = 0
            for at, count in enumerate(added.get(session, []), 1):
                total += count
                if number <= total:
                    break
            else:
                at = len(added.get(session, []))
            yield value, at
        elif value["command"] == "step" and value["reply"] == "ok":
            added.setdefault(value["name"], []).append(value["added"])
        elif value["command"] == "print":
            seen[value.get("name")] = 0


def key(mention):
    """What makes two mentions equal, of the outputs of any scripts."""
    found = sorted((x["name"], x["start"], x["end"], x.get("label") or "") for x in mention["arguments"])
    return mention["document"], mention["sentence"], mention["start"], mention["end"], mention["label"], tuple(found)


def argument_words(mention, form="{name}{label}={text}"):
    """The arguments as texts: name:Label=text."""
    return [
        form.format(name=x["name"], label=":" + x["label"] if x.get("label") else "", text=x["text"])
        for x in mention["arguments"]
    ]
