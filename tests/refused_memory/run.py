#!/usr/bin/env python3
"""Refuses the program its memory, request by request.

For each number n, the n-th request for memory of a run of two clients is refused, once alone and once with every later one.
Each run must end with status 9 and the line `odinson: no memory`. A client for which memory is refused ends there, and nothing
of what was answered is lost: the output is that of the same script with fewer orders. Where one request alone is refused, the
other client has all of its orders, or no client began; where all later ones are refused too, no later client has any.

Build the program first, from the top of the repository: (cd crates/odinson_cli && rt run -- serve < stdin)
It needs a C compiler, for what stands before the allocator (refuse.c).
"""
import os
import subprocess
import sys
import tempfile

HERE = os.path.dirname(os.path.abspath(__file__))
CRATE = os.path.join(HERE, "..", "..", "crates", "odinson_cli")
PROGRAM = os.path.join(CRATE, "out", "odinson_cli")


HEADS = "# Two clients, each with a session of its own.\nquery q dogs bark\nquery w cats\n"
DOGS = "1\tDogs\t_\t_\t_\t_\t_\t_\t_\t_\n2\tbark\t_\t_\t_\t_\t_\t_\t_\t_\n"
CATS = "1\tCats\t_\t_\t_\t_\t_\t_\t_\t_\n"
FIRST = [f"doc d 2\n{DOGS}", "open s q 5\n", "step s\n", "step s\n", "print s\n", "release s\n"]
SECOND = [f"doc e 1\n{CATS}", "open t w 5\n", "step t\n", "print t\n", "settle\n", "release t\n"]


def script(first, second):
    """The script with so many orders of either client."""
    return (HEADS + "client\n" + "".join(FIRST[:first]) + "client\n" + "".join(SECOND[:second])).encode()


def run(shim, given, number, onward, count):
    environment = dict(os.environ, LD_PRELOAD=shim, REFUSE_AT=str(number), REFUSE_ON="1" if onward else "0", REFUSE_COUNT=count)
    done = subprocess.run([PROGRAM, "serve"], input=given, capture_output=True, env=environment, timeout=60)
    return done.returncode, done.stdout, done.stderr


def answered(first, second):
    """The output of the script with so many orders of either client."""
    done = subprocess.run([PROGRAM, "serve"], input=script(first, second), capture_output=True, timeout=60)
    assert done.returncode == 0 and done.stderr == b"", "the script itself is not answered"
    return done.stdout


def main():
    if not os.path.exists(PROGRAM):
        sys.exit("build the program first: (cd crates/odinson_cli && rt run -- serve < stdin)")
    n, m = len(FIRST), len(SECOND)
    alone = {answered(k, m) for k in range(n)} | {answered(n, k) for k in range(m)} | {b""}
    from_there = {answered(k, 0) for k in range(n)} | {answered(n, k) for k in range(m)}
    whole = script(n, m)
    seen = {False: set(), True: set()}
    with tempfile.TemporaryDirectory() as folder:
        shim = os.path.join(folder, "refuse.so")
        subprocess.run(["cc", "-shared", "-fPIC", "-O1", "-o", shim, os.path.join(HERE, "refuse.c")], check=True)
        count = os.path.join(folder, "count")
        assert run(shim, whole, 0, False, count) == (0, answered(n, m), b""), "the script itself is not answered"
        with open(count) as file:
            requests = int(file.read())
        assert requests > 0, "no request was seen: is the program linked with another allocator?"
        for onward, outputs in (False, alone), (True, from_there):
            for number in range(1, requests + 1):
                status, output, said = run(shim, whole, number, onward, count)
                where = f"request {number}{' and later ones' if onward else ''} refused"
                assert status == 9, f"{where}: status {status}"
                assert said == b"odinson: no memory\n", f"{where}: {said!r}"
                assert output in outputs, f"{where}: {output!r}"
                seen[onward].add(output)
    print(f"{requests} requests refused, alone and from there on: each time status 9 and whole answers,")
    print(f"of {len(seen[False])} and {len(seen[True])} different lengths")


main()
