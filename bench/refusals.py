#!/usr/bin/env python3
"""Has the memory of `clof` refused, one call after another, and checks that each run then says so and writes nothing, or writes all.

    bench/refusals.py [--clof PROGRAM] [--levels N]

PROGRAM is the built program (crates/clof/out/clof). A row is a run under a plan of at most --levels levels, as a walk, on a thread a
caller, on two threads that the callers share, or with receipts; or one caller's run under the usual plan; or a drill. Each row is run with
the first call of the C library's malloc, calloc, realloc or aligned_alloc refused, then with the second, and so on, one number a run, until
a run makes fewer calls. A run has to print `clof: out of memory` on standard error, nothing on standard output, and end with status 7; or
print nothing on standard error, end with status 0, and print the row's text: that of the model for a walk and for one caller, a run for
threads, with a line of receipts for each caller where these are asked for, for a drill the text that it prints with all memory. It prints
for each row how many calls were refused and how many of these runs ended without memory, and ends with status 1 where a run did neither. It
needs gcc, and a program that takes its memory from the C library, as a built one does. Not part of the gate.
"""
import argparse
import os
import subprocess
import sys
import tempfile

from walks import PROGRAM, Case, Section, worked_cases

# A library that stands before the C library: it refuses one call, whose number is an environment variable, and says on a pipe that it did.
PRELOADED = r"""
#include <errno.h>
#include <stdatomic.h>
#include <stddef.h>
#include <stdlib.h>
#include <unistd.h>

extern void *__libc_malloc(size_t), *__libc_calloc(size_t, size_t), *__libc_realloc(void *, size_t), *__libc_memalign(size_t, size_t);

static atomic_long calls;
static long refused, told;

__attribute__((constructor)) static void start(void)
{
    const char *number = getenv("REFUSED_CALL"), *pipe = getenv("REFUSED_PIPE");
    atomic_store(&calls, 0);
    told = pipe ? atol(pipe) : -1;
    refused = number ? atol(number) : 0;
}

static int is_refused(void)
{
    if (refused == 0 || atomic_fetch_add(&calls, 1) + 1 != refused) return 0;
    if (write(told, "r", 1) != 1) abort();
    errno = ENOMEM;
    return 1;
}

void *malloc(size_t size) { return is_refused() ? NULL : __libc_malloc(size); }
void *calloc(size_t count, size_t size) { return is_refused() ? NULL : __libc_calloc(count, size); }
void *realloc(void *from, size_t size) { return is_refused() ? NULL : __libc_realloc(from, size); }
void *aligned_alloc(size_t align, size_t size) { return is_refused() ? NULL : __libc_memalign(align, size); }
"""

WANTING = (7, b"", b"clof: out of memory\n")


class Row:
    """A call of the program: its words, its input, and why a text is none of its answers."""

    def __init__(self, name, words, given, fault):
        """A fault is a function of a text that answers None where the text is right."""
        self.name, self.words, self.given, self.fault = name, words, given, fault

    def ended(self, program, library, number):
        """The status and the two texts of a run with this call refused, and whether it was made."""
        told, tell = os.pipe()
        with open(told, "rb") as told:
            names = {**os.environ, "LD_PRELOAD": library, "REFUSED_CALL": str(number), "REFUSED_PIPE": str(tell)}
            words = [program, *self.words]
            ran = subprocess.run(words, input=self.given, capture_output=True, timeout=60, env=names, pass_fds=[tell])
            os.close(tell)
            return (ran.returncode, ran.stdout, ran.stderr), told.read() != b""


def plan_words(case):
    """The words of a run under a case's plan."""
    keeps = ",".join(map(str, case.keeps)) or "128"
    return ["run", "--levels", ",".join(case.levels), "--locks", "-".join(case.kinds), "--keep", keeps, case.description]


def wider_cases():
    """Plans whose callers give several commands with blocks, so that the store, the journal and the text grow."""
    block = b"x" * 600
    sets = [b"set k%d 0 0 %d\r\n%s\r\n" % (w, len(block), block) for w in range(4)]
    sections = [Section("*", [first, b"append k0 0 0 1\r\ny\r\n", b"get k0 k1\r\n"]) for first in sets]
    plans = [
        ("Package:2 Core:2 PU:1", ["package", "machine"], ["tkt", "hem"], [2]),
        ("Package:2 L3Cache:2 PU:2", ["l3", "package", "machine"], ["mcs", "clh", "hem"], [1, 16]),
    ]
    for description, levels, kinds, keeps in plans:
        yield Case(description, levels, kinds, keeps, sections, [None] * len(sections))


def crowded_case():
    """Twelve callers in two packages, who count together."""
    sections = [Section("*", [b"add n 0 0 1\r\n0\r\n", b"incr n 1\r\n", b"incr n 1\r\n"]) for _ in range(12)]
    return Case("Package:2 Core:4 PU:1", ["package", "machine"], ["mcs", "tkt"], [2], sections, [None] * len(sections))


def lone_case():
    """One caller under the usual plan, who counts past the greatest number, compares uniques, and stores without a reply."""
    commands = [
        b"set n 0 0 20\r\n18446744073709551615\r\n",
        b"incr n 1\r\n",
        b"decr n 5\r\n",
        b"cas n 0 0 1 1\r\n7\r\n",
        b"cas n 0 0 1 3\r\n7\r\n",
        b"gets n\r\n",
        b"set n 0 0 1 noreply\r\n8\r\n",
    ]
    return Case("PU:1", ["machine"], ["mcs"], [], [Section("*", commands)], [None])


def text_fault(said):
    """A fault of all texts but this one."""
    return lambda text: None if text == said else "not the row's text"


def rows(program, levels):
    """Each case as a walk, on a thread a caller, on shared threads and with receipts; one caller's run without options; and a drill."""
    for case in [*(case for case, _ in worked_cases()), *wider_cases(), crowded_case()]:
        if len(case.levels) > levels:
            continue
        words, given = plan_words(case), case.given()
        name = f"{len(case.sections)} callers of {'-'.join(case.kinds)} keep {words[-2]}"
        yield Row(f"{name}, a walk", [*words, "--walk"], given, text_fault(case.walked()))
        yield Row(f"{name}, on threads", words, given, case.fault)
        yield Row(f"{name}, on two threads", [*words, "--threads", "2"], given, case.fault)
        yield Row(f"{name}, with receipts", [*words, "--receipts"], given, case.marked_fault)
    lone = lone_case()
    yield Row("one caller under the usual plan, on a thread", ["run"], lone.given(), text_fault(lone.walked()))
    drilled = subprocess.run([program, "drill", "7"], capture_output=True, check=True).stdout
    yield Row("a drill", ["drill", "7"], b"", text_fault(drilled))


def fault(row, ended):
    """Why a run didn't end as it has to, or None."""
    status, text, errors = ended
    if ended == WANTING:
        return None
    if status or errors:
        return f"status {status}, standard error {errors[:200]!r}, standard output {text[:200]!r}"
    return row.fault(text)


def refused_calls(row, program, library):
    """How many calls of a row were refused, and how many of the runs ended without memory; or why one ended otherwise."""
    number = wanting = 0
    while True:
        number += 1
        ended, is_made = row.ended(program, library, number)
        wrong = fault(row, ended)
        if wrong:
            return f"with call {number} refused: {wrong}"
        if not is_made:
            return number - 1, wanting
        wanting += ended == WANTING


def main():
    """Reads the words and runs the rows."""
    words = argparse.ArgumentParser()
    words.add_argument("--clof", default=PROGRAM)
    words.add_argument("--levels", type=int, default=5, help="at most so many levels")
    asked = words.parse_args()
    if not os.access(asked.clof, os.X_OK):
        sys.exit(f"{asked.clof} isn't there; ./clof builds it")
    program, is_wrong = os.path.abspath(asked.clof), False
    with tempfile.TemporaryDirectory() as folder:
        library = os.path.join(folder, "refuses.so")
        subprocess.run(["gcc", "-O2", "-shared", "-fPIC", "-x", "c", "-o", library, "-"], input=PRELOADED.encode(), check=True)
        for row in rows(program, asked.levels):
            told = refused_calls(row, program, library)
            is_wrong |= isinstance(told, str)
            told = told if isinstance(told, str) else "{} calls refused, {} runs without memory".format(*told)
            print(f"{row.name}: {told}", flush=True)
    sys.exit(1 if is_wrong else 0)


if __name__ == "__main__":
    main()
