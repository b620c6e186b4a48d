#!/usr/bin/env python3
"""Has the memory of `plan_bench` refused, one call after another, for locks of one to five levels, and checks that each run then ends
without memory or makes all holds, and that a lock that was refused memory gave its root back.

    bench/lock_refusals.py [PROGRAM]

PROGRAM is the built program (crates/plan_bench/out/plan_bench). Each lock is made by a run with the first call of the C library's malloc,
calloc, realloc or aligned_alloc refused, then with the second, and so on, one number a run, until a run makes fewer calls. A run has to
end with status 0 and the counts of all holds, or with status 1 and a message that memory was wanting; where the lock was refused memory,
the message tells what its root came back with, which has to be no turn. It prints for each lock how many calls were refused, how many of
the runs wanted memory, and how many of these had the root back, of which there are at least two a level; it ends with status 1 where a run
did otherwise. It needs gcc. Not part of the gate.
"""
import os
import subprocess
import sys
import tempfile

from refusals import PRELOADED, Row

PROGRAM = os.path.join(os.path.dirname(os.path.abspath(__file__)), "..", "crates", "plan_bench", "out", "plan_bench")
LOCKS = ["mcs", "clh-mcs", "hem-clh-tkt", "tkt-hem-clh-mcs", "mcs-tkt-hem-clh-hem"]
RETURNED = b"Error: there was no memory for the lock; its root came back with 0 turns and 0 calls\n"


def tried(locks, program, library):
    """How many calls were refused, how many runs wanted memory, and how many had the root back; or why one ended otherwise."""
    row = Row(locks, [locks, "1", "2", "3", "recorded"], b"", None)
    number = wanting = returned = 0
    while True:
        number += 1
        (status, text, errors), is_made = row.ended(program, library, number)
        if status == 1 and not text and errors:
            wanting += 1
            returned += errors == RETURNED
        elif (status, text, errors) != (0, f"{locks} 1 2 recorded 6 6\n".encode(), b""):
            return f"with call {number} refused: status {status}, standard error {errors[:200]!r}, standard output {text[:200]!r}"
        if not is_made:
            break
    if returned < 2 * (locks.count("-") + 1):
        return f"the root came back {returned} times alone"
    return number - 1, wanting, returned


def main():
    """Runs all locks."""
    program, is_wrong = os.path.abspath(sys.argv[1] if len(sys.argv) > 1 else PROGRAM), False
    if not os.access(program, os.X_OK):
        sys.exit(f"{program} isn't there; run 'rt run' in crates/plan_bench first")
    with tempfile.TemporaryDirectory() as folder:
        library = os.path.join(folder, "refuses.so")
        subprocess.run(["gcc", "-O2", "-shared", "-fPIC", "-x", "c", "-o", library, "-"], input=PRELOADED.encode(), check=True)
        for locks in LOCKS:
            told = tried(locks, program, library)
            is_wrong |= isinstance(told, str)
            told = told if isinstance(told, str) else "{} calls refused, {} runs without memory, {} roots back".format(*told)
            print(f"{locks}: {told}", flush=True)
    sys.exit(1 if is_wrong else 0)


if __name__ == "__main__":
    main()
