#!/usr/bin/env python3
"""Asks memcached what it answers to the sections of crates/history_trials/src/tests.rt, over loopback.

Run from anywhere: bench/memcached_store.py   (Debian's package memcached 1.6.18; it is no part of the gate)
Each section is asked of a server of its own, so that uniques begin at 1. It prints each section that memcached answers
otherwise, and how many there are; docs/MEMCACHED.md has the kinds in which they differ.
"""
import pathlib
import re

from memcached_server import LITERAL, ask, bytes_of, compare, server

TESTS = pathlib.Path(__file__).parent.parent / "crates/history_trials/src/tests.rt"


def sections():
    for text, wanted in re.findall(rf"\(\s*({LITERAL}),\s*({LITERAL}),?\s*\)", TESTS.read_text()):
        yield bytes_of(text), bytes_of(wanted)


def replies(text):
    """What a new memcached answers, twice: as what is compared, and as what is shown."""
    with server():
        reply = ask(text)
    return reply, reply


compare("sections", sections(), replies)
