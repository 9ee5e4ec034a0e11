"""What is said to the user: faults that end a word, notes, and progress on long work."""
import sys
import time


class Told(Exception):
    """A fault that is told in lines, and ends the word with a status."""

    def __init__(self, *lines, status=2):
        super().__init__("\n".join(lines))
        self.status = status


def place(path, line=None):
    """FILE or FILE:LINE, as editors read it."""
    return str(path) if line is None else f"{path}:{line}"


def note(*lines):
    """Lines for the user, beside the output."""
    sys.stdout.flush()
    for line in lines:
        print(line, file=sys.stderr)


def visible(line, most=120):
    """A line of a file with its tabs to be seen, cut where it is long."""
    text = line.decode("utf-8", "replace") if isinstance(line, bytes) else line
    text = text.rstrip("\r\n").replace("\t", "\u2192")
    return text if len(text) <= most else text[: most - 3] + "..."


def of(count, word, words=None):
    """A number with its word: 1 mention, 2 mentions."""
    return f"{count:,} {word if count == 1 else words or word + 's'}"


class Progress:
    """One line on standard error that is renewed while long work goes on; nothing where it goes to a file."""

    def __init__(self, what):
        self.what = what
        self.count = 0
        self.began = self.last = time.monotonic()
        self.shown = False

    def add(self, count=1):
        self.count += count
        now = time.monotonic()
        if now - self.last < 0.5 or now - self.began < 2 or not sys.stderr.isatty():
            return
        self.last = now
        self.shown = True
        print(f"\r{self.count:,} {self.what} ", end="", file=sys.stderr, flush=True)

    def end(self):
        if self.shown:
            print("\r" + " " * 60 + "\r", end="", file=sys.stderr, flush=True)
