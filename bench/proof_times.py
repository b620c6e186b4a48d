#!/usr/bin/env python3
"""Tells which parts of a crate's proof take longest.

    bench/proof_times.py CRATE [COUNT]

It proves the crate by one job, with nothing kept of the crate itself, and prints the COUNT (20) dearest modules of that proof with their
seconds. The checker writes a file for each module as it ends with it, so the time between two files is what the later one took, with
whatever was checked beside it and isn't kept. Of a function, `Lts` and `Tie` are the walk through its code and what its calls stand on,
`Goals` what is left to show, `Answers` the answers of proofs/, and `Proof` the searches. Beside other work on the machine all is slower.
"""
import os
import shutil
import subprocess
import sys

ROOT = os.path.join(os.path.dirname(os.path.abspath(__file__)), "..")


def files_of(folder):
    """The files below a folder that one module each has, with the moment at which each was written, in that order."""
    found = []
    for at, _, names in os.walk(folder):
        for name in names:
            if name.endswith(".oantt"):
                found.append((os.path.getmtime(os.path.join(at, name)), name[: -len(".oantt")]))
    return sorted(found)


def main():
    if len(sys.argv) not in (2, 3):
        print(__doc__, file=sys.stderr)
        return 2
    crate = os.path.join(ROOT, "crates", sys.argv[1])
    count = int(sys.argv[2]) if len(sys.argv) == 3 else 20
    kept = os.path.join(crate, "out", "incremental")
    shutil.rmtree(kept, ignore_errors=True)
    done = subprocess.run(["rt", "check", "--jobs", "1"], cwd=crate, stdout=subprocess.PIPE, stderr=subprocess.STDOUT, text=True)
    files = files_of(kept)
    if not files:
        print(done.stdout, file=sys.stderr)
        print(f"proof_times: the check of {sys.argv[1]} kept no module", file=sys.stderr)
        return 1
    took = [(later - earlier, name) for (earlier, _), (later, name) in zip(files, files[1:])]
    print(f"{len(files)} modules in {files[-1][0] - files[0][0]:.0f} s, behind the first; status {done.returncode}")
    for seconds, name in sorted(took, reverse=True)[:count]:
        print(f"{seconds:7.1f} {name}")
    return done.returncode


sys.exit(main())
