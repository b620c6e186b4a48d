#!/usr/bin/env python3
"""Counts what documents say of the program's costs: reads and writes, and instructions in proportion to what is asked.

    bench/costs.py [--clof PROGRAM] [--counted]

PROGRAM is the built program (crates/clof/out/clof). Reads and writes are those that the system counts of a process (/proc/PID/io). A run
reads its input by 64 KiB, so an input takes as many reads as it has pieces of that size, the last of which may be shorter, and one more
that finds the end; each text goes out in one write. Where a row has another number the script ends with status 1.

With --counted valgrind's callgrind counts instructions, which takes minutes: of `calc --largest` over 1,024 and over 2,048 objects that the
answer has, where each object costs the same if the ratio is 2; and of 1,000 deletes in a store of 2,000 and of 4,000 items, where a delete
costs the same if the ratio is 1. Not part of the gate.
"""
import argparse
import os
import re
import subprocess
import sys
import tempfile

PROGRAM = os.path.join(os.path.dirname(os.path.abspath(__file__)), "../crates/clof/out/clof")
PIECE = 65_536


def section(commands):
    return b"worker * %d\n" % len(commands) + commands + b"\n"


def calls(program, words, given):
    """The reads, the writes and the length of the text of a call."""
    with tempfile.TemporaryFile() as source, tempfile.TemporaryFile() as text:
        source.write(given)
        source.seek(0)
        child = subprocess.Popen([program, *words], stdin=source, stdout=text)
        os.waitid(os.P_PID, child.pid, os.WEXITED | os.WNOWAIT)
        with open(f"/proc/{child.pid}/io", encoding="ascii") as file:
            counts = dict(line.split(": ") for line in file.read().splitlines())
        if child.wait() != 0:
            sys.exit(f"{words}: status {child.returncode}")
        return int(counts["syscr"]), int(counts["syscw"]), text.seek(0, 2)


def instructions(program, words, given):
    """The instructions of a call."""
    with tempfile.NamedTemporaryFile() as out:
        done = subprocess.run(
            ["valgrind", "--tool=callgrind", f"--callgrind-out-file={out.name}", program, *words],
            input=given, stdout=subprocess.DEVNULL, stderr=subprocess.PIPE, check=True,
        )
        return int(re.search(rb"Collected : (\d+)", done.stderr)[1])


def input_of(pieces, more=0):
    """An input of so many pieces and bytes: one section, whose commands are a `get` and many wrong lines."""
    size = pieces * PIECE + more
    head = len(section(b"")) + len(str(size)) - 1
    for length in range(size - head - 2, size - head + 3):
        line = b"get " + b"k" * 90 + b"\r\n"
        given = section((line * (length // len(line) + 1))[:length])
        if len(given) == size:
            return given
    sys.exit(f"no input of {size} bytes")


def show_calls(program):
    """Shows reads and writes, and says whether they are as documents say."""
    base, writes, _ = calls(program, ["set", "0x0"], b"")
    right = writes == 1
    print(f"{'call':34} {'reads':>6} {'writes':>7} {'bytes of text':>14}")
    for words in (["topo", "PU:4096"], ["distrib", "4096", "PU:4096"]):
        reads, writes, length = calls(program, words, b"")
        right = right and reads == base and writes == 1
        print(f"{' '.join(words):34} {reads - base:6} {writes:7} {length:14}")
    for pieces, more in ((0, 100), (1, 0), (1, 1), (4, 0), (16, 100)):
        reads, writes, length = calls(program, ["run"], input_of(pieces, more))
        wanted = pieces + (more > 0) + 1
        right = right and reads - base == wanted and writes == 1
        print(f"run, {pieces * PIECE + more:,} bytes of input".ljust(34), f"{reads - base:6} {writes:7} {length:14}")
    return right


def deletes(keys, deleted):
    """An input that sets so many keys and deletes some, the first ones."""
    commands = b"".join(b"set k%d 0 0 1\r\nx\r\n" % key for key in range(keys))
    return section(commands + b"".join(b"delete k%d\r\n" % key for key in range(deleted)))


def show_instructions(program):
    print(f"{'instructions of':34} {'once':>12} {'twice':>12} {'ratio':>6}")
    least = instructions(program, ["calc", "Core:1024 PU:2", "pu:0"], b""), instructions(program, ["calc", "Core:2048 PU:2", "pu:0"], b"")
    most = [
        instructions(program, ["calc", f"Core:{cores} PU:2", "--largest", "pu:even"], b"") - one
        for cores, one in zip((1024, 2048), least)
    ]
    print(f"{'1,024, 2,048 items of --largest':34} {most[0]:12} {most[1]:12} {most[1] / most[0]:6.2f}")
    gone = [
        instructions(program, ["run"], deletes(keys, 1000)) - instructions(program, ["run"], deletes(keys, 0))
        for keys in (2000, 4000)
    ]
    print(f"{'1,000 deletes of 2,000, 4,000 keys':34} {gone[0]:12} {gone[1]:12} {gone[1] / gone[0]:6.2f}")


def main():
    parser = argparse.ArgumentParser(description=__doc__.splitlines()[0])
    parser.add_argument("--clof", default=PROGRAM)
    parser.add_argument("--counted", action="store_true")
    asked = parser.parse_args()
    if not os.path.exists(asked.clof):
        sys.exit(f"there is no {asked.clof}: run ./clof set 0x0 first")
    right = show_calls(asked.clof)
    if asked.counted:
        show_instructions(asked.clof)
    sys.exit(0 if right else 1)


if __name__ == "__main__":
    main()
