#!/usr/bin/env python3
"""Times `clof drill`, 64 callers who share four threads, beside the same commands given otherwise.

Run from anywhere, with a built program (./clof):   bench/drill.py [ROUNDS]
Each row is a whole process whose text goes to /dev/null, the rows in turn, ROUNDS times (nine): the drill; `run` of its sections under its
plan, on a thread a caller, on four shared threads and as a walk; and all its commands in one section, under its plan and under the default
lock. `run` prints a line for each command, and the drill eight sums. It prints the least, the median and the greatest of each row, in
milliseconds, and the processor time of its fastest run.
"""
import os
import pathlib
import sys
import tempfile
import time

PROGRAM = pathlib.Path(__file__).parent.parent / "crates/clof/out/clof"
NUMBER = 7
CALLERS = 64
PLAN = ["--levels", "l3,package,machine", "--locks", "mcs-clh-hem", "--keep", "16"]
MACHINE = "Package:2 L3Cache:2 Core:4 PU:2"


def section(caller):
    """The commands of one caller: each key is added, and then each of its numbers."""
    yield from (b"add k%d 0 0 1 noreply\r\n0\r\n" % key for key in range(8))
    for number in range(caller, 20_000, CALLERS):
        yield b"incr k%d %d noreply\r\n" % (number % 8, (number + NUMBER) % 1000)


def run(words, place):
    """Seconds of the program, and seconds of processors."""
    with open(place) as source, open(os.devnull, "wb") as out:
        streams = [(os.POSIX_SPAWN_DUP2, source.fileno(), 0), (os.POSIX_SPAWN_DUP2, out.fileno(), 1)]
        began = time.perf_counter()
        child = os.posix_spawn(PROGRAM, ["clof", *words], {}, file_actions=streams)
        _, status, usage = os.wait4(child, 0)
        seconds = time.perf_counter() - began
    if status:
        sys.exit(f"clof {' '.join(words)} ended with {status}")
    return seconds, usage.ru_utime + usage.ru_stime


def written(folder, name, texts):
    place = folder / name
    place.write_bytes(b"".join(b"worker * %d\n%s\n" % (len(text), text) for text in texts))
    return place


def main(rounds):
    texts = [b"".join(section(caller)) for caller in range(CALLERS)]
    with tempfile.TemporaryDirectory() as name:
        folder = pathlib.Path(name)
        apart = written(folder, "apart", texts)
        alone = written(folder, "alone", [b"".join(texts)])
        rows = {
            "drill": (["drill", str(NUMBER)], os.devnull),
            "run, a thread a caller": (["run", *PLAN, MACHINE], apart),
            "run --threads 4 --quantum 64": (["run", *PLAN, "--threads", "4", "--quantum", "64", MACHINE], apart),
            "run --walk": (["run", *PLAN, "--walk", MACHINE], apart),
            "one caller, the same plan": (["run", *PLAN, MACHINE], alone),
            "one caller, one level": (["run"], alone),
        }
        times = {row: [] for row in rows}
        for _ in range(rounds):
            for row, (words, place) in rows.items():
                times[row].append(run(words, place))
    for row, runs in times.items():
        runs.sort()
        least, median, most = (runs[place][0] * 1000 for place in (0, len(runs) // 2, -1))
        print(f"{row:30} {least:7.1f} {median:7.1f} {most:7.1f} ms  {runs[0][1] * 1000:7.1f} ms of processors")


main(int(sys.argv[1]) if len(sys.argv) > 1 else 9)
