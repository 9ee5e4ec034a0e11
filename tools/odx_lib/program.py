"""The program: where it is, and a script given to it."""
import os
import subprocess
import tempfile

from .told import Told

HERE = os.path.dirname(os.path.abspath(__file__))
BUILT = os.path.normpath(os.path.join(HERE, "..", "..", "crates", "odinson_cli", "out", "odinson_cli"))


def found(given):
    """The program's path: the one given, that of ODINSON, or the one that this repository builds; else None."""
    for path in (given, os.environ.get("ODINSON"), BUILT):
        if path and os.path.isfile(path) and os.access(path, os.X_OK):
            return path
        if path and path != BUILT:
            raise Told(f"{path}: this is no program that can be run (named by --program or ODINSON)")
    return None


def needed(given):
    path = found(given)
    if path is None:
        raise Told(
            f"{BUILT}: the program is not built",
            "  build it from the top of the repository: (cd crates/odinson_cli && rt run -- serve < stdin)",
            "  or name it: --program PATH, or ODINSON=PATH in the environment",
        )
    return path


class Run:
    """What the program made of a script: its status, its output in a file, and its diagnostic."""

    def __init__(self, status, output, diagnostic):
        self.status, self.output, self.diagnostic = status, output, diagnostic


def run(path, script, folder):
    """Gives the script, a file, to the program; the output is written to a file of the folder."""
    handle, output = tempfile.mkstemp(dir=folder, suffix=".jsonl")
    with open(script, "rb") as given, os.fdopen(handle, "wb") as taken:
        try:
            done = subprocess.run([path, "serve"], stdin=given, stdout=taken, stderr=subprocess.PIPE)
        except OSError as fault:
            raise Told(f"{path}: {fault.strerror}")
    return Run(done.returncode, output, done.stderr.decode("utf-8", "replace"))
