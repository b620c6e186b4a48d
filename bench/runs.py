#!/usr/bin/env python3
"""Runs `clof run` on drawn inputs of many callers, each several times, and says of every printed text whether it is a run.

    bench/runs.py PROGRAM [--inputs N] [--times N] [--seed N]

PROGRAM is the built program (crates/clof/out/clof). An input has 2 to 256 sections of a few commands each. A text is a run where its turns
give each section's commands once and in order, each reply is that of one plain store that is asked in the order of the turns, each turn
begins where the one before left and leaves where a lock of this shape has to, and the callers' lines follow. With one level, which is what
is run here, each turn climbs to level 0, has no tests and leaves there. It prints how many texts were runs, and for how many inputs the
order of the turns differed between two calls. Not part of the gate.
"""
import argparse
import random
import re
import subprocess
import sys

TURN = re.compile(
    rb'turn (\d+) caller (\d+) pu (\d+) climb (\d+) tests (\d+) left (\d+) "((?:[^"\\]|\\.)*)" "((?:[^"\\]|\\.)*)"\n'
)

# What stands behind the name of a command, but for noreply.
STORED = ["key", "number", "time", "number"]
FIELDS = {
    **dict.fromkeys([b"set", b"add", b"replace", b"append", b"prepend"], STORED),
    **dict.fromkeys([b"incr", b"decr"], ["key", "delta"]),
    b"cas": [*STORED, "unique"], b"delete": ["key"], b"touch": ["key", "time"], b"moment": ["number"], b"flush_all": [],
}
LIMITS = {"number": 2**32, "delta": 2**64, "unique": 2**64}


def printed(text):
    """A text as it stands between quotes."""
    signs = {13: b"\\r", 10: b"\\n", 92: b"\\\\", 34: b'\\"'}
    return b"".join(signs.get(byte) or (bytes([byte]) if 31 < byte < 127 else b"\\x%02x" % byte) for byte in text)


def draw_block(draw):
    """The end of a storage line, from its count of bytes on, and its block, at times with too many bytes."""
    block = bytes(draw.choice(b'ab"\\\x00\xff') for _ in range(draw.randrange(6)))
    if draw.randrange(2):
        block = b"%d" % draw.choice([0, 7, 100, 2**64 - 1])
    more = b"" if draw.randrange(20) else b"zz"
    return b" %d", len(block), b"\r\n%s%s\r\n" % (block, more)


def draw_storing(draw, key):
    """A command with a block."""
    name = draw.choice([b"set", b"set", b"set", b"add", b"replace", b"append", b"prepend", b"cas"])
    time = draw.choice([0, 0, 0, 0, -1, 1, 5, 20, 2592001])
    form, count, block = draw_block(draw)
    line = b"%s %s %d %d" % (name, key, draw.randrange(9), time) + form % count
    if name == b"cas":
        line += b" %d" % draw.randrange(1, 12)
    return line + draw.choice([b"", b"", b"", b" noreply"]) + block


def draw_command(draw):
    """One command over few keys, so that callers meet."""
    key, quiet = b"k%d" % draw.randrange(4), draw.choice([b"", b"", b"", b" noreply"])
    kind = draw.randrange(20)
    if kind < 6:
        return draw_storing(draw, key)
    if kind < 9:
        name = draw.choice([b"incr", b"incr", b"decr"])
        return b"%s %s %d%s\r\n" % (name, key, draw.choice([0, 1, 5, 99, 2**64 - 1]), quiet)
    if kind < 11:
        return b"delete %s%s\r\n" % (key, quiet)
    if kind < 14:
        return b"gets %s\r\n" % key
    if kind < 17:
        return b"get %s %s\n" % (key, b"k%d" % draw.randrange(4))
    if kind == 17:
        return draw.choice([b"frob\r\n", b"get\r\n", b"\r\n", b"incr %s x\r\n" % key, b"set %s x 0 1\r\n" % key, b"delete %s no\r\n" % key])
    if kind == 18:
        return b"moment %d%s\r\n" % (draw.randrange(60), quiet)
    return draw.choice([b"touch %s %d%s\r\n" % (key, draw.choice([0, -1, 3]), quiet), b"version\r\n", b"flush_all%s\r\n" % quiet])


def is_wrong(field, word):
    """Whether a word doesn't fit its field."""
    if field == "key":
        return len(word) > 250 or any(byte <= 32 or byte == 127 for byte in word)
    if field == "time":
        return not re.fullmatch(rb"-?\d+", word) or not -(2**31) <= int(word) < 2**31
    return not word.isdigit() or int(word) >= LIMITS[field]


def line_fault(words):
    """The reply to a line that is no command, or None; of the lines that are drawn."""
    if words in ([b"version"], [b"quit"]) or words[:1] in ([b"get"], [b"gets"]) and len(words) > 1:
        return None
    fields = FIELDS.get(words[0]) if words else None
    if fields is None or len(words) - 1 not in (len(fields), len(fields) + 1):
        return b"ERROR\r\n"
    if len(words) - 1 > len(fields) and words[-1] != b"noreply":
        return b"ERROR\r\n"
    for field, word in zip(fields, words[1:]):
        if is_wrong(field, word):
            return b"CLIENT_ERROR %s\r\n" % (b"invalid numeric delta argument" if field == "delta" else b"bad command line format")
    return None


class Store:
    """What memcached answers to the commands that are drawn, and this program to `moment`."""

    def __init__(self):
        """No items; an item is its flags, expiry, block and unique."""
        self.items, self.unique, self.moment = {}, 1, 0

    def expiry(self, time):
        """The expiry of an expiry time."""
        if time == 0:
            return None
        if time < 0:
            return self.moment
        return self.moment + time if time <= 2592000 else time

    def expire(self):
        """Removes what has expired."""
        self.items = {key: item for key, item in self.items.items() if item[1] is None or item[1] > self.moment}

    def put(self, key, flags, expiry, block):
        """Stores an item."""
        self.items[key] = (flags, expiry, block, self.unique)
        self.unique = (self.unique + 1) % 2**64
        self.expire()
        return b"STORED\r\n"

    def answer(self, command):
        """The reply to a whole command."""
        line, _, behind = command.partition(b"\n")
        words = [word for word in line.removesuffix(b"\r").split(b" ") if word]
        wrong = line_fault(words)
        if wrong:
            return wrong
        if FIELDS.get(words[0], [])[:4] == STORED and behind[int(words[4]) :][:2] != b"\r\n":
            return b"CLIENT_ERROR bad data chunk\r\n"
        reply = self.reply(words, behind)
        return b"" if words[-1] == b"noreply" and words[0] in FIELDS else reply

    def reply(self, words, behind):
        """The reply to a command without a fault, as if it weren't quiet."""
        name = words[0]
        if name in (b"get", b"gets"):
            return b"".join(self.value(key, name == b"gets") for key in words[1:]) + b"END\r\n"
        if FIELDS.get(name, [])[:4] == STORED:
            return self.store(name, words, behind[: int(words[4])])
        if name in (b"version", b"quit"):
            return b"VERSION clof 1\r\n" if name == b"version" else b""
        if name == b"flush_all":
            self.items = {}
            return b"OK\r\n"
        if name == b"moment":
            return self.move_on(int(words[1]))
        return self.change(name, words)

    def value(self, key, with_unique):
        """What `get` and `gets` say of a key."""
        if key not in self.items:
            return b""
        flags, _, block, unique = self.items[key]
        tail = b" %d" % unique if with_unique else b""
        return b"VALUE %s %d %d%s\r\n%s\r\n" % (key, flags, len(block), tail, block)

    def store(self, name, words, block):
        """Storage commands."""
        key, flags, expiry, item = words[1], int(words[2]), self.expiry(int(words[3])), self.items.get(words[1])
        if name == b"cas" and (item is None or item[3] != int(words[5])):
            return b"EXISTS\r\n" if item else b"NOT_FOUND\r\n"
        if name == b"add" and item or name in (b"replace", b"append", b"prepend") and not item:
            return b"NOT_STORED\r\n"
        if name in (b"append", b"prepend"):
            flags, expiry = item[:2]
            block = item[2] + block if name == b"append" else block + item[2]
        return self.put(key, flags, expiry, block)

    def move_on(self, moment):
        """`moment`."""
        if moment < self.moment:
            return b"CLIENT_ERROR moment goes back\r\n"
        self.moment = moment
        self.expire()
        return b"OK\r\n"

    def change(self, name, words):
        """Commands on an item that is there."""
        item = self.items.get(words[1])
        if not item:
            return b"NOT_FOUND\r\n"
        if name == b"delete":
            del self.items[words[1]]
            return b"DELETED\r\n"
        if name == b"touch":
            self.items[words[1]] = (item[0], self.expiry(int(words[2])), *item[2:])
            self.expire()
            return b"TOUCHED\r\n"
        if not (item[2].isdigit() and len(item[2]) <= 20 and int(item[2]) < 2**64):
            return b"CLIENT_ERROR cannot increment or decrement non-numeric value\r\n"
        by = int(words[2])
        number = b"%d" % ((int(item[2]) + by) % 2**64 if name == b"incr" else max(int(item[2]) - by, 0))
        self.put(words[1], item[0], item[1], number)
        return number + b"\r\n"


def handed_on(level, lefts):
    """How many turns were handed on at a level, behind the last one that was handed on higher."""
    count = 0
    for left in reversed(lefts):
        if left > level:
            break
        count += left == level
    return count


def unlawful(turns, paths, keeps):
    """The first turn (caller, climb, tests, left) that no lock of this shape makes, or None. A caller's path is its node at each level."""
    top, lefts = len(keeps), []
    for i, (caller, climb, tests, left) in enumerate(turns):
        if climb != (lefts[-1] if lefts else top):
            return f"turn {i}: it climbs to {climb}"
        if lefts and paths[caller][climb] != paths[turns[i - 1][0]][climb]:
            return f"turn {i}: the lock was left in another node"
        due = [k for k in range(top) if tests >> k & 1 and handed_on(k, lefts) < keeps[k]]
        if left != (due[0] if due else top) or tests >> min(left + 1, top):
            return f"turn {i}: it leaves at {left} with tests {tests}"
        lefts.append(left)
    return "the last turn keeps the lock" if lefts and lefts[-1] != top else None


def unserved(turns, paths, top):
    """The first turn that saw another waiting in a node, who isn't served next there, or None."""
    for i, (caller, _, tests, _) in enumerate(turns):
        for level in (k for k in range(top) if tests >> k & 1):
            there = [turn[0] for turn in turns[i + 1 :] if paths[turn[0]][level] == paths[caller][level]]
            under = [w if level == 0 else paths[w][level - 1] for w in [caller, *there[:1]]]
            if len(under) < 2 or under[0] == under[1]:
                return f"turn {i}: it saw one waiting at level {level} who isn't served next"
    return None


def fault(sections, text, pus=None, rests=None, paths=None, keeps=()):
    """Why a text is no run of these sections, or None. Without more it is that of one level, on one PU and without rests."""
    pus, rests, paths = pus or [0] * len(sections), rests or [0] * len(sections), paths or [[0]] * len(sections)
    given, store, place, turns = [0] * len(sections), Store(), 0, []
    while match := TURN.match(text, place):
        number, caller, pu, *turn = map(int, match.groups()[:6])
        if number != len(turns) or caller >= len(sections):
            return f"turn {len(turns)}: its number or its caller"
        if given[caller] == len(sections[caller]):
            return f"turn {number}: caller {caller} has no command left"
        command = sections[caller][given[caller]]
        if pu != pus[caller] or match[7] != printed(command):
            return f"turn {number}: its place or its command"
        if match[8] != printed(store.answer(command)):
            return f"turn {number}: its reply"
        if not match[0].startswith(b"turn %d caller %d pu %d climb %d tests %d left %d " % (number, caller, pu, *turn)):
            return f"turn {number}: its numbers have zeros in front"
        given[caller] += 1
        turns.append((caller, *turn))
        place = match.end()
    if given != [len(section) for section in sections]:
        return "a caller has commands left"
    ends = b"".join(b"caller %d pu %d commands %d rest %d\n" % (w, pus[w], len(s), rests[w]) for w, s in enumerate(sections))
    if text[place:] != ends:
        return "the callers' lines"
    return unlawful(turns, paths, keeps) or unserved(turns, paths, len(keeps))


def main():
    """Reads the words and checks what they ask for."""
    words = argparse.ArgumentParser()
    words.add_argument("program")
    words.add_argument("--inputs", type=int, default=100)
    words.add_argument("--times", type=int, default=10)
    words.add_argument("--seed", type=int, default=1)
    asked = words.parse_args()
    draw = random.Random(asked.seed)
    runs = differing = 0
    for _ in range(asked.inputs):
        callers = draw.choice([2, 3, 4, 8, 16, 64, 256])
        most = max(2, 4000 // callers)
        sections = [[draw_command(draw) for _ in range(draw.randrange(most))] for _ in range(callers)]
        texts = [b"".join(section) for section in sections]
        given = b"".join(b"worker * %d\n%s\n" % (len(text), text) for text in texts)
        orders = set()
        for _ in range(asked.times):
            ended = subprocess.run([asked.program, "run"], input=given, capture_output=True)
            wrong = f"status {ended.returncode}" if ended.returncode else fault(sections, ended.stdout)
            if wrong:
                sys.exit(f"seed {asked.seed}, {callers} callers: {wrong}")
            runs += 1
            orders.add(tuple(match[2] for match in TURN.finditer(ended.stdout)))
        differing += len(orders) > 1
    print(f"{runs} of {runs} texts are runs; in {differing} of {asked.inputs} inputs the order of turns differed")


if __name__ == "__main__":
    main()
