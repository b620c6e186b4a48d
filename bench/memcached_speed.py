#!/usr/bin/env python3
"""Times clof run beside memcached, over loopback, on the same bytes (Debian's package memcached 1.6.18).

Run from anywhere, with a built program (./clof):   bench/memcached_speed.py [ROW ..]
clof is timed as a whole process whose text goes to /dev/null, and memcached with one thread from the first byte that is sent
on one connection to the last reply, which the script drops too. Each row is the best of five, taken in turn. Rows: set, get,
incr, expiring (`set` with expiry times; each as many commands as fit 16 MiB), moments (100,000 items that expire one after the other,
of which each `moment` removes one, which is stored again), lines (16 MiB of `get a`), keys (20,000 keys), growth (1 to 16 MiB).
set2, set4, get2, get4, incr2 and incr4 have as many sections of the same commands, and as many threads and connections of memcached, each
asked by a process of its own.
"""
import multiprocessing
import os
import pathlib
import sys
import tempfile
import time

from memcached_server import ask, server

PROGRAM = pathlib.Path(__file__).parent.parent / "crates/clof/out/clof"
LIMIT = 16 * 1024 * 1024
KEYS = 100_000
RUNS = 5


def key(number):
    return b"key%013d" % (number % KEYS)


def sets(count):
    return [b"set %s 0 0 32\r\n%s\r\n" % (key(number), b"v" * 32) for number in range(count)]


def expiring(count):
    """As `sets`, with an expiry time of its own for each key."""
    return [b"set %s 0 %d 32\r\n%s\r\n" % (key(number), number % KEYS + 1, b"v" * 32) for number in range(count)]


def steps(keys, count):
    """The moment goes on by one, at which one of so many items expires, and that is stored again behind the others."""
    for number in range(count):
        yield b"moment %d\r\n" % (number + 1)
        yield b"set %s 0 %d 32\r\n%s\r\n" % (key(number % keys), keys, b"v" * 32)


def fill(commands, more, limit):
    """The commands, and as many of the others, from the first on and again, as fit an input of this length."""
    room = limit - len("worker * 16777216\n\n") - sum(map(len, commands))
    number = 0
    commands = list(commands)
    while room >= len(more[number % len(more)]):
        commands.append(more[number % len(more)])
        room -= len(commands[-1])
        number += 1
    return commands


def commands_of(row, limit=LIMIT):
    if row == "set":
        return fill([], sets(KEYS), limit)
    if row == "get":
        return fill(sets(min(KEYS, limit // 160)), [b"get %s\r\n" % key(number) for number in range(KEYS)], limit)
    if row == "incr":
        return fill([b"set n 0 0 1\r\n0\r\n"], [b"incr n 1\r\n"], limit)
    if row == "expiring":
        return fill([], expiring(KEYS), limit)
    if row == "moments":
        keys = min(KEYS, limit // 160)
        return fill(expiring(keys), list(steps(keys, limit // 64)), limit)
    return fill([], [b"get a\r\n"], limit)


def run(*texts):
    """Seconds and the greatest resident memory, in MB, of the program on a section for each text."""
    with tempfile.TemporaryDirectory() as folder:
        place = pathlib.Path(folder) / "in"
        place.write_bytes(b"".join(b"worker * %d\n%s\n" % (len(text), text) for text in texts))
        with open(place) as source, open(os.devnull, "wb") as out:
            streams = [(os.POSIX_SPAWN_DUP2, source.fileno(), 0), (os.POSIX_SPAWN_DUP2, out.fileno(), 1)]
            began = time.perf_counter()
            child = os.posix_spawn(PROGRAM, ["clof", "run"], {}, file_actions=streams)
            _, status, usage = os.wait4(child, 0)
            seconds = time.perf_counter() - began
    if status:
        sys.exit(f"clof ended with {status}")
    return seconds, usage.ru_maxrss / 1024


def answered(text):
    """Seconds that a new memcached takes for the text."""
    with server():
        began = time.perf_counter()
        ask(text)
        return time.perf_counter() - began


def ask_when(begun, text):
    """Asks once all that wait for the barrier do."""
    begun.wait()
    ask(text)


def answered_together(texts):
    """Seconds that a new memcached takes for texts on as many connections, with as many threads."""
    begun = multiprocessing.Barrier(len(texts) + 1)
    with server(len(texts)):
        askers = [multiprocessing.Process(target=ask_when, args=(begun, text)) for text in texts]
        for asker in askers:
            asker.start()
        begun.wait()
        began = time.perf_counter()
        for asker in askers:
            asker.join()
        return time.perf_counter() - began


def compare(row, count, times):
    ours, theirs = (count / min(side) / 1e6 for side in zip(*times))
    print(f"{row:8} {count:9,} commands  clof {ours:6.2f}  memcached {theirs:6.2f} million a second  {ours / theirs:5.2f} times")


def beside(row):
    commands = commands_of(row)
    text = b"".join(commands)
    compare(row, len(commands), [(run(text)[0], answered(text)) for _ in range(RUNS)])


def together(row):
    """A row whose last sign is the number of its callers."""
    callers = int(row[-1])
    commands = commands_of(row[:-1], (LIMIT - 100) // callers)
    texts = [b"".join(commands)] * callers
    compare(row, callers * len(commands), [(run(*texts)[0], answered_together(texts)) for _ in range(RUNS)])


def alone(row, commands):
    text = b"".join(commands)
    times, sizes = zip(*(run(text) for _ in range(RUNS)))
    print(f"{row:8} {len(commands):9,} commands  {min(times) * 1000:7.1f} ms  {max(sizes):5.0f} MB")


def growth():
    for row in ("set", "get", "incr", "expiring", "moments", "lines"):
        per_byte = []
        for size in (1, 2, 4, 8, 16):
            text = b"".join(commands_of(row, size * 1024 * 1024))
            seconds = min(run(text)[0] for _ in range(RUNS))
            per_byte.append(seconds / len(text) * 1e9)
        print(f"growth   {row:8} 1, 2, 4, 8, 16 MiB  " + "  ".join(f"{ns:5.1f}" for ns in per_byte) + "  ns a byte")


def main(rows):
    for row in rows:
        if row in ("moments", "lines"):
            alone(row, commands_of(row))
        elif row == "keys":
            alone(row, sets(20_000))
        elif row == "growth":
            growth()
        elif row[-1].isdigit():
            together(row)
        else:
            beside(row)


SHARED = ["set2", "set4", "get2", "get4", "incr2", "incr4"]

main(sys.argv[1:] or ["set", "get", "incr", *SHARED, "expiring", "moments", "lines", "keys", "growth"])
