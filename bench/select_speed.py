#!/usr/bin/env python3
"""Times clof select at its limits, as a whole process, on a trace drawn from a seed.

    bench/select_speed.py [SEED [RUNS [PROGRAM]]]

It needs a built program (./clof, or rt run in crates/clof). The topology has sixteen levels below Machine and 4,096 PUs, so there are 2,517
lists of levels, and the trace has 16,384 turns. Each next PU shares an object of a drawn depth with the one before. Printed are the least
and the middle time of the runs, the processor time and from start to end, for a keep of 128 and of 2.
"""
import os
import random
import subprocess
import sys
import tempfile
import time

SEED = int(sys.argv[1]) if len(sys.argv) > 1 else 7
RUNS = int(sys.argv[2]) if len(sys.argv) > 2 else 11
PROGRAM = sys.argv[3] if len(sys.argv) > 3 else os.path.join(os.path.dirname(__file__), "../crates/clof/out/clof")

DESCRIPTION = " ".join(["Group:1"] * 4 + ["Group:2"] * 10 + ["Core:2", "PU:2"])
PUS = 4096
TURNS = 16384


def trace(rng):
    pu, lines = 0, []
    for _ in range(TURNS):
        width = 1 << rng.randint(0, 12)
        pu = pu // width * width + rng.randrange(width)
        lines.append(f"{pu}\n")
    return "".join(lines)


def timed(words, path):
    before = time.perf_counter()
    with open(path) as given:
        child = subprocess.Popen(words, stdin=given, stdout=subprocess.PIPE)
        text = child.stdout.read()
        _, status, usage = os.wait4(child.pid, 0)
    whole = time.perf_counter() - before
    child.returncode = os.waitstatus_to_exitcode(status)
    return text.decode(), child.returncode, usage.ru_utime + usage.ru_stime, whole


def main():
    with tempfile.NamedTemporaryFile("w", suffix=".trace") as given:
        given.write(trace(random.Random(SEED)))
        given.flush()
        for keep in ("128", "2"):
            words = [PROGRAM, "select", "--keep", keep, DESCRIPTION]
            runs = [timed(words, given.name) for _ in range(RUNS)]
            assert all(code == 0 for _, code, _, _ in runs)
            used = sorted(run[2] for run in runs)
            whole = sorted(run[3] for run in runs)
            print(f"keep {keep}: {' '.join(runs[0][0].split())}")
            for name, times in (("processor", used), ("whole", whole)):
                print(f"  {name}: least {1000 * times[0]:.0f} ms, middle {1000 * times[RUNS // 2]:.0f} ms of {RUNS}")


if __name__ == "__main__":
    main()
