#!/usr/bin/env python3
"""Compares clof distrib with hwloc-distrib (Debian's hwloc-nox) over a table of distributions, and prints how many agree.

    bench/distributions.py [PROGRAM]

It needs a built program (./clof, or rt run in crates/clof). Each description is shared out between every two depths, in both
orders of lists, whole and with each mask's first number alone, into 1 mask, into primes, into as many masks as there are PUs,
and into 4,096. Where masks are fewer than objects, shares of 0 come in the middle and in the last place; the first share of a
list is never 0. Not in the table: what docs/HWLOC.md lists as different, which is L1i levels, interleaved siblings,
levels of Groups, and --reverse with --single.
"""
import itertools
import os
import subprocess
import sys

PROGRAM = sys.argv[1] if len(sys.argv) > 1 else os.path.join(os.path.dirname(__file__), "../crates/clof/out/clof")

# A description, and the names of its depths from the root.
DESCRIPTIONS = [
    ("PU:7", ["machine", "pu"]),
    ("Core:3 PU:1", ["machine", "core", "pu"]),
    ("Core:1 PU:5", ["machine", "core", "pu"]),
    ("Package:5 PU:7", ["machine", "package", "pu"]),
    ("Package:2 Core:2 PU:2", ["machine", "package", "core", "pu"]),
    ("Package:3 L2:2 Core:2 PU:3", ["machine", "package", "l2", "core", "pu"]),
    ("Package:2 Die:3 Core:5 PU:2", ["machine", "package", "die", "core", "pu"]),
    ("Package:1 Core:1 PU:1", ["machine", "package", "core", "pu"]),
    ("Package:2 L3:7 L2:3 Core:1 PU:3", ["machine", "package", "l3", "l2", "core", "pu"]),
]
MASKS = [1, 2, 3, 4, 5, 7, 11, 13, 17, 29, 61, 126]
# A description at the limit of PUs, with few runs.
LARGE = ("Package:4 L3:4 Core:64 PU:4", [1, 2, 3, 5, 17, 64, 4093, 4095, 4096])


def masks(words):
    return subprocess.run(words, capture_output=True, text=True, check=True).stdout


def cases():
    for text, names in DESCRIPTIONS:
        for upper, lower in itertools.combinations_with_replacement(names, 2):
            for n in MASKS:
                for flags in ([], ["--reverse"], ["--single"]):
                    yield ["--from", upper, "--to", lower, *flags], n, text
            if upper == lower:
                yield ["--at", upper], 3, text
    text, counts = LARGE
    for n in counts:
        for flags in ([], ["--reverse"], ["--taskset"]):
            yield flags, n, text


def main():
    agree, differ = 0, []
    for options, n, text in cases():
        here = masks([PROGRAM, "distrib", *options, str(n), text])
        there = masks(["hwloc-distrib", "-i", text, *options, str(n)])
        if here == there:
            agree += 1
        else:
            differ.append((options, n, text))
    print(f"{agree} distributions agree, {len(differ)} differ")
    for options, n, text in differ:
        print("differs:", " ".join(options), n, repr(text))
    sys.exit(1 if differ else 0)


main()
