#!/usr/bin/env python3
"""Compares clof calc with hwloc-calc (Debian's hwloc-nox) on lists of locations drawn at random, and prints how many agree.

    bench/locations.py [PROGRAM [COUNT [SEED]]]

It needs a built program (./clof, or rt run in crates/clof). Words are drawn over four descriptions, of which one has interleaved PUs and
memory: every operator, all forms of index, parts inside parts, sets in hexadecimal, and each kind of answer. Not drawn: what
docs/HWLOC.md lists as different, as `a-b` with a above b, and `a:n` that goes past the end.
"""
import os
import random
import subprocess
import sys

PROGRAM = sys.argv[1] if len(sys.argv) > 1 else os.path.join(os.path.dirname(__file__), "../crates/clof/out/clof")
COUNT = int(sys.argv[2]) if len(sys.argv) > 2 else 1200
SEED = int(sys.argv[3]) if len(sys.argv) > 3 else 5

# A description, and names of its layers from the root with how many objects each has.
DESCRIPTIONS = [
    ("Package:2 Core:2 PU:2", [("machine", 1), ("package", 2), ("core", 4), ("pu", 8)]),
    ("Package:3 L2:2 Core:2 PU:3", [("package", 3), ("l2", 6), ("core", 12), ("pu", 36)]),
    (
        "Package:2 [NUMANode(memory=1GiB)] L3:1(size=1MiB) Core:3 PU:2(indexes=2*6:1*2)",
        [("package", 2), ("numa", 2), ("l3", 2), ("core", 6), ("pu", 12)],
    ),
    ("Package:2 Die:2 L3:2 L2:2 Core:1 PU:4", [("package", 2), ("die", 4), ("l3", 8), ("l2", 16), ("core", 16), ("pu", 64)]),
]


def index(count):
    """An index among so many objects, in any of its forms."""
    first = random.randrange(count)
    return random.choice(
        [
            "all",
            "odd",
            "even",
            str(random.randrange(count + 1)),
            f"{first}-",
            f"{first}-{random.randrange(first, count + 1)}",
            f"{first}:{random.randrange(1, count - first + 1)}",
        ]
    )


def location(layers):
    if random.random() < 0.2:
        return random.choice(["all", "root", hex(random.randrange(1, 255))])
    at = random.randrange(len(layers))
    parts = [f"{layers[at][0]}:{index(layers[at][1])}"]
    while random.random() < 0.5 and at + 1 < len(layers):
        inner = random.randrange(at + 1, len(layers))
        parts.append(f"{layers[inner][0]}:{index(max(1, layers[inner][1] // layers[at][1]))}")
        at = inner
    return ".".join(parts)


def question(layers):
    first, inner, last = layers[0][0], layers[-2][0], layers[-1][0]
    asked = [["-I", inner], ["-N", last], ["-H", f"{first}.{last}"], ["--largest"], ["--taskset"], ["--single"], []]
    return random.choice(asked)


def printed(words):
    return subprocess.run(words, capture_output=True, text=True, stdin=subprocess.DEVNULL, check=False).stdout.strip()


def main():
    random.seed(SEED)
    agree, differ = 0, []
    for _ in range(COUNT):
        text, layers = random.choice(DESCRIPTIONS)
        words = [random.choice(["", "", "~", "x", "^"]) + location(layers) for _ in range(random.randrange(1, 5))]
        asked = question(layers)
        here = printed([PROGRAM, "calc", *asked, text, "--", *words])
        there = printed(["hwloc-calc", "-i", text, *asked, *words])
        if here == there:
            agree += 1
        else:
            differ.append((asked, text, words, here, there))
    print(f"{agree} answers agree, {len(differ)} differ")
    for case in differ:
        print("differs:", *case)
    sys.exit(1 if differ else 0)


main()
