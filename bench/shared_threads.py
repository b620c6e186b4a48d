#!/usr/bin/env python3
"""Times clof run with 256 callers of `incr` on one key who share threads, beside a thread a caller and beside memcached.

Run from anywhere, with a built program (./clof):   bench/shared_threads.py [ROUNDS [COMMANDS]]
Each caller has COMMANDS `incr` (1,000). clof is timed as a whole process whose text goes to /dev/null: with `--threads` 1, 2 and 4, each
with `--quantum` 1 and 64, and without these words, which is a thread for each caller. memcached 1.6.18 (Debian's package) is timed with 1,
2 and 4 threads and 256 connections over loopback, from the first byte that is sent to the last reply, which two processes drop. The rows
are taken in turn, ROUNDS times (five), and each prints the least and the greatest rate of its runs.
"""
import multiprocessing
import os
import pathlib
import selectors
import socket
import sys
import tempfile
import time

from memcached_server import PORT, server

PROGRAM = pathlib.Path(__file__).parent.parent / "crates/clof/out/clof"
CALLERS = 256
COMMAND = b"incr n 1\r\n"
FIRST = b"set n 0 0 1\r\n0\r\n"
ASKERS = 2


def texts(commands):
    """The text of each caller; the first one stores the number."""
    return [FIRST * (caller == 0) + COMMAND * commands for caller in range(CALLERS)]


def count(asked):
    return sum(text.count(b"incr") for text in asked) + 1


def run(place, words):
    """Seconds of the program on the input, and the megabytes that it had at most."""
    with open(place) as source, open(os.devnull, "wb") as out:
        streams = [(os.POSIX_SPAWN_DUP2, source.fileno(), 0), (os.POSIX_SPAWN_DUP2, out.fileno(), 1)]
        began = time.perf_counter()
        child = os.posix_spawn(PROGRAM, ["clof", "run", *words], {}, file_actions=streams)
        _, status, usage = os.wait4(child, 0)
        seconds = time.perf_counter() - began
    if status:
        sys.exit(f"clof run {' '.join(words)} ended with {status}")
    return seconds, usage.ru_maxrss / 1024


def talk(begun, asked):
    """Sends each text on a connection of its own, once all that wait for the barrier do, and reads replies until the last one."""
    waiting = selectors.DefaultSelector()
    for text in asked:
        connection = socket.create_connection(("127.0.0.1", PORT), timeout=20)
        connection.setblocking(False)
        waiting.register(connection, selectors.EVENT_READ | selectors.EVENT_WRITE, memoryview(text))
    begun.wait()
    while waiting.get_map():
        for key, ready in waiting.select():
            step(waiting, key, ready)


def step(waiting, key, ready):
    """Sends what the connection takes, says so once nothing is left to send, and reads what has come."""
    connection, rest = key.fileobj, key.data
    if ready & selectors.EVENT_WRITE:
        rest = rest[connection.send(rest[: 1 << 16]) :]
        if not rest:
            connection.shutdown(socket.SHUT_WR)
        waiting.modify(connection, selectors.EVENT_READ | (selectors.EVENT_WRITE if rest else 0), rest)
    if ready & selectors.EVENT_READ and not connection.recv(1 << 20):
        waiting.unregister(connection)
        connection.close()


def answered(asked, threads):
    """Seconds that a new memcached with so many threads takes."""
    begun = multiprocessing.Barrier(ASKERS + 1)
    with server(threads):
        askers = [multiprocessing.Process(target=talk, args=(begun, asked[first::ASKERS])) for first in range(ASKERS)]
        for asker in askers:
            asker.start()
        begun.wait()
        began = time.perf_counter()
        for asker in askers:
            asker.join()
        return time.perf_counter() - began, 0


def rows(place, asked):
    """Each row's name, and what times it once."""
    for threads in ("1", "2", "4"):
        for quantum in ("1", "64"):
            words = ["--threads", threads, "--quantum", quantum]
            yield f"clof {' '.join(words)}", lambda words=words: run(place, words)
    yield "clof, a thread a caller", lambda: run(place, [])
    for threads in (1, 2, 4):
        yield f"memcached -t {threads}", lambda threads=threads: answered(asked, threads)


def main(rounds, each):
    asked = texts(each)
    commands = count(asked)
    with tempfile.TemporaryDirectory() as folder:
        place = pathlib.Path(folder) / "in"
        place.write_bytes(b"".join(b"worker * %d\n%s\n" % (len(text), text) for text in asked))
        times = {}
        for _ in range(rounds):
            for name, once in rows(place, asked):
                times.setdefault(name, []).append(once())
    print(f"{commands:,} commands of {CALLERS} callers, {rounds} runs each: millions a second, and megabytes at most")
    for name, runs in times.items():
        rates = [commands / seconds / 1e6 for seconds, _ in runs]
        size = max(megabytes for _, megabytes in runs)
        print(f"{name:32} {min(rates):5.2f} to {max(rates):5.2f}" + (f"  {size:5.0f} MB" if size else ""))


main(*map(int, [*sys.argv[1:], *[5, 1000][len(sys.argv) - 1 :]]))
