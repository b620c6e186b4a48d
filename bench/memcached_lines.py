#!/usr/bin/env python3
"""Asks memcached what it answers to the vectors of crates/history_trials/src/tests/lines.rt, over loopback.

Run from anywhere: bench/memcached_lines.py   (Debian's package memcached 1.6.18; it is no part of the gate)
It prints each vector whose answer has another kind than the table says, and how many there are.
"""
import pathlib
import re

from memcached_server import LITERAL, ask, bytes_of, compare, server

VECTORS = pathlib.Path(__file__).parent.parent / "crates/history_trials/src/tests/lines.rt"
KINDS = {
    b"ERROR\r\n": "Unknown",
    b"CLIENT_ERROR bad command line format\r\n": "Format",
    b"CLIENT_ERROR bad data chunk\r\n": "Chunk",
    b"CLIENT_ERROR invalid numeric delta argument\r\n": "Delta",
    b"SERVER_ERROR object too large for cache\r\n": "TooLarge",
}


def vectors():
    for text, good, fault in re.findall(rf"\(({LITERAL}),\s*(?:(Good)|Bad\((\w+)\))\)", VECTORS.read_text()):
        yield bytes_of(text), good or fault


def kind(text):
    """The kind of the first line that memcached answers, and all that it answers."""
    reply = ask(text)
    return KINDS.get(reply.partition(b"\n")[0] + b"\n", "Good"), reply


with server():
    compare("vectors", vectors(), kind)
