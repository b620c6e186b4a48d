#!/usr/bin/env python3
"""Times clof check on printed runs as long as it takes, as a whole process.

    bench/check_time.py [RUNS [PROGRAM]]

It needs a built program (./clof, or rt run in crates/clof). Each run is printed by clof run, with as many commands as make input and
printed text together almost 67,108,864 bytes. Printed are the least and the middle time of the checks, the processor time and from start to
end, and the most memory that one held beside the bytes that it read. A text with its last reply changed is checked once more: it has to be
told.
"""
import os
import subprocess
import sys
import tempfile
import time

RUNS = int(sys.argv[1]) if len(sys.argv) > 1 else 5
PROGRAM = sys.argv[2] if len(sys.argv) > 2 else os.path.join(os.path.dirname(__file__), "../crates/clof/out/clof")

LIMIT = 67_108_864
MACHINE = "Package:2 L3Cache:2 Core:4 PU:2"
LEVELS = ["--levels", "l3,package,machine", "--keep", "16"]


def gets(place):
    return b"get a\r\n"


def counts(place):
    return b"incr k%d 1\r\n" % (place % 8) if place >= 8 else b"add k%d 0 0 1\r\n0\r\n" % place


def stores(place):
    return b"set k%06d 0 0 8\r\n%08d\r\n" % (place % 100_000, place)


# What is checked: a name, how many callers there are, what each gives, and the words of the run and of the check.
CASES = [
    ("get a, one caller", 1, gets, [], []),
    ("incr of 8 keys, 64 callers under three levels", 64, counts, ["--walk", *LEVELS, MACHINE], [*LEVELS, MACHINE]),
    ("set of 100,000 keys, 64 callers under three levels", 64, stores, ["--walk", *LEVELS, MACHINE], [*LEVELS, MACHINE]),
]


def sections(callers, command, each):
    parts = []
    for caller in range(callers):
        commands = b"".join(command(place) for place in range(caller * each, caller * each + each))
        parts.append(b"worker * %d\n%s\n" % (len(commands), commands))
    return b"".join(parts)


def printed(words, text):
    done = subprocess.run([PROGRAM, "run", *words], input=text, stdout=subprocess.PIPE, check=True)
    return done.stdout


def pair(text, lines):
    return b"input %d\n%s\n%s" % (len(text), text, lines)


# The longest pair within the limit, by a first run that tells how long a command's line is.
def longest(callers, command, words):
    each = 1_000
    while True:
        text = sections(callers, command, each)
        whole = pair(text, printed(words, text))
        if LIMIT - 200_000 < len(whole) <= LIMIT:
            return whole
        room = LIMIT - 100_000 if len(whole) < LIMIT // 2 else LIMIT - 20_000
        each = int(each * room / len(whole))


def checked(words, path):
    before = time.perf_counter()
    with open(path, "rb") as given:
        child = subprocess.Popen([PROGRAM, "check", *words], stdin=given, stdout=subprocess.PIPE)
        text = child.stdout.read()
        _, status, usage = os.wait4(child.pid, 0)
    whole = time.perf_counter() - before
    child.returncode = os.waitstatus_to_exitcode(status)
    assert child.returncode == 0
    return text, usage.ru_utime + usage.ru_stime, whole, usage.ru_maxrss * 1024


def verdict(words, data, runs):
    with tempfile.NamedTemporaryFile(suffix=".pair") as given:
        given.write(data)
        given.flush()
        return [checked(words, given.name) for _ in range(runs)]


def main():
    for name, callers, command, run, check in CASES:
        data = longest(callers, command, run)
        runs = verdict(check, data, RUNS)
        assert all(text == b"yes\n" for text, _, _, _ in runs)
        used = sorted(run[1] for run in runs)
        whole = sorted(run[2] for run in runs)
        beside = max(run[3] for run in runs) - len(data)
        print(f"{name}: {len(data):,} bytes, {data.count(b'turn '):,} turns, {beside / 1e6:.0f} MB beside them")
        for kind, times in (("processor", used), ("whole", whole)):
            print(f"  {kind}: least {times[0]:.2f} s, middle {times[RUNS // 2]:.2f} s of {RUNS}")
        end = data.rindex(b"\nturn ")
        reply = data.index(b'"\n', end) - 1
        changed = data[:reply] + b"x" + data[reply + 1 :]
        number = int(data[end + 6 :].split(b" ", 1)[0])
        assert verdict(check, changed, 1)[0][0] == b"no %d\n" % number


if __name__ == "__main__":
    main()
