#!/usr/bin/env python3
"""Compares clof select with a plain and slow program, on descriptions and traces that are drawn at random.

    bench/selections.py [SEED [COUNT [PROGRAM]]]

It needs a built program (./clof, or rt run in crates/clof). For each drawn description, keep, weights and trace it tries every list of one
to five levels, and goes back over the turns before each turn to tell where it is handed on. The cheapest list, among those the one with the
fewest levels, and among those the least from the lowest level, is what clof select has to print.
"""
import itertools
import os
import random
import subprocess
import sys

SEED = int(sys.argv[1]) if len(sys.argv) > 1 else 7
COUNT = int(sys.argv[2]) if len(sys.argv) > 2 else 1000
PROGRAM = sys.argv[3] if len(sys.argv) > 3 else os.path.join(os.path.dirname(__file__), "../crates/clof/out/clof")

# The kinds of levels between Machine and the PUs, from the root, by their long names.
KINDS = ["Package", "Die", "L3Cache", "L2Cache", "L1dCache", "Core"]


def objects_over(arities, pu):
    """The object over a PU at each depth, Machine first."""
    found = [pu]
    for arity in reversed(arities):
        found.append(found[-1] // arity)
    return found[::-1]


def run_of(level, lefts):
    """How many turns were handed on at a level, behind the last one that was handed on higher."""
    run = 0
    for left in lefts:
        if left > level:
            run = 0
        elif left == level:
            run += 1
    return run


def cost_of(arities, weights, depths, keep, trace):
    top = len(depths) - 1
    lefts, cost = [], 0
    for i, pu in enumerate(trace):
        climb = lefts[-1] if lefts else top
        cost += sum(weights[depth] for depth in depths[: climb + 1])
        left = top
        if i + 1 < len(trace):
            here, there = objects_over(arities, pu), objects_over(arities, trace[i + 1])
            for level in range(top):
                if here[depths[level]] == there[depths[level]] and run_of(level, lefts) < keep:
                    left = level
                    break
        lefts.append(left)
    return cost


def level_lists(depth_count):
    """All lists of levels, lowest first: those of fewer levels first, then the least from the lowest level."""
    for more in range(5):
        chosen = [list(reversed(c)) for c in itertools.combinations(range(1, depth_count), more)]
        for lower in sorted(chosen):
            yield lower + [0]


def cheapest(arities, weights, keep, trace):
    best = None
    for depths in level_lists(len(arities) + 1):
        cost = cost_of(arities, weights, depths, keep, trace)
        if best is None or cost < best[0]:
            best = (cost, depths)
    return best


def drawn(rng):
    kinds = [kind for kind in KINDS if rng.random() < 0.5]
    arities = [rng.randint(1, 3) for _ in range(len(kinds) + 1)]
    names = ["Machine", *kinds, "PU"]
    text = " ".join(f"{name}:{arity}" for name, arity in zip(names[1:], arities))
    pus = 1
    for arity in arities:
        pus *= arity
    trace = []
    for _ in range(rng.choice([0, 1, 2, 5, 12, 25])):
        near = trace[-1] + rng.randint(-2, 2) if trace and rng.random() < 0.7 else rng.randrange(pus)
        trace.append(near % pus)
    keep = rng.choice([None, 0, 1, 2, 3, 65535])
    weights = None
    if rng.random() < 0.6:
        weights = [rng.choice([1, 2, 3, 5, 100, 1000000]) for _ in names]
    return names, arities, text, trace, keep, weights


def main():
    rng = random.Random(SEED)
    agree, differ = 0, []
    for _ in range(COUNT):
        names, arities, text, trace, keep, weights = drawn(rng)
        used = weights or [2 ** (len(names) - 1 - depth) for depth in range(len(names))]
        cost, depths = cheapest(arities, used, 128 if keep is None else keep, trace)
        wanted = f"levels {','.join(names[depth] for depth in depths)}\ncost {cost} turns {len(trace)}\n"
        words = [PROGRAM, "select"]
        words += [] if weights is None else ["--weights", ",".join(map(str, weights))]
        words += [] if keep is None else ["--keep", str(keep)]
        given = "".join(f"{pu}\n" for pu in trace)
        found = subprocess.run([*words, text], input=given, capture_output=True, text=True)
        if found.returncode == 0 and found.stdout == wanted:
            agree += 1
        else:
            differ.append((words[1:], text, trace, wanted, found.stdout, found.stderr))
    for case in differ[:10]:
        print(case)
    print(f"seed {SEED}: {agree} of {COUNT} agree")
    sys.exit(1 if differ else 0)


if __name__ == "__main__":
    main()
