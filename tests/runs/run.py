#!/usr/bin/env python3
"""Runs the program on the scripts of this folder, and compares what it writes and its status with what is stored beside them.

A folder has the script (stdin) and the output (stdout), and where they are not empty and not 0 the diagnostic (stderr) and the
exit status (status). The scripts of faults.py have a fault each, with the line that tells it. The folders of cookbook are the
recipes of docs/COOKBOOK.md, which is compared with them.

Build the program first, from the top of the repository: (cd crates/odinson_cli && rt run -- serve < stdin)
"""
import os
import subprocess
import sys

import cookbook
import faults

HERE = os.path.dirname(os.path.abspath(__file__))
PROGRAM = os.path.join(HERE, "..", "..", "crates", "odinson_cli", "out", "odinson_cli")


def stored(folder, name, otherwise):
    path = os.path.join(HERE, folder, name)
    if not os.path.exists(path):
        return otherwise
    with open(path, "rb") as file:
        return file.read()


def folders():
    """Each stored run: its name, the script, the status, the output and the diagnostic."""
    for folder in sorted(os.listdir(HERE)):
        if os.path.exists(os.path.join(HERE, folder, "stdin")):
            status = int(stored(folder, "status", b"0"))
            yield folder, stored(folder, "stdin", b""), status, stored(folder, "stdout", b""), stored(folder, "stderr", b"")


def scripts():
    yield from folders()
    for number, (script, status, output, said) in enumerate(faults.ALL):
        yield f"fault {number}: {(said or output).strip()}", script, status, output.encode(), said.encode()


def main():
    program = sys.argv[1] if len(sys.argv) > 1 else PROGRAM
    if not os.path.exists(program):
        sys.exit("build the program first: (cd crates/odinson_cli && rt run -- serve < stdin)")
    failed = passed = 0
    for name, script, status, output, said in scripts():
        done = subprocess.run([program, "serve"], input=script, capture_output=True, timeout=120)
        if (done.returncode, done.stdout, done.stderr) == (status, output, said):
            passed += 1
            continue
        failed += 1
        print(f"{name}: status {done.returncode}, {done.stderr[:200]!r}")
        for line, expected in zip(done.stdout.splitlines(), output.splitlines()):
            if line != expected:
                print(f"  wrote    {line[:300]!r}\n  expected {expected[:300]!r}")
                break
    for name, wrong in cookbook.tried(program):
        passed, failed = passed + (wrong is None), failed + (wrong is not None)
        if wrong:
            print(f"cookbook {name}: {wrong}")
    print(f"{passed} passed, {failed} failed")
    sys.exit(1 if failed else 0)


if __name__ == "__main__":
    main()
