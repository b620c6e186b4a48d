#!/usr/bin/env python3
"""Walks `clof run` under drawn plans and compares each printed text, byte for byte, with that of a plain model of the locks and the walk.

    bench/walks.py [--clof PROGRAM] [--seed N] [--walks N] [--threads N]
    bench/walks.py --rows [--seed N] [--walks N]

PROGRAM is the built program (crates/clof/out/clof). A drawn plan has one to five levels of a drawn description, a kind of lock and a keep
for each, and 1 to 24 callers with 0 to 12 commands each. The model is walk_model.py. The first inputs also run on threads, as many as
--threads says, where the text has to be a run (`fault` of runs.py), as each text of the model has to be; so do they on threads that callers
share, and with receipts, which have to be those of the text's turns. With --rows no program is called:
the model has to print the texts that were worked out by hand, and runs. It prints how many agree and the first difference whole, and ends
with status 1 where there is one. Not part of the gate.
"""
import argparse
import os
import random
import subprocess
import sys

from runs import Store, draw_command, fault, printed
from walk_model import LOCKS, walked_turns

PROGRAM = os.path.join(os.path.dirname(os.path.abspath(__file__)), "../crates/clof/out/clof")

# The kinds of layers below the machine in the order in which they are drawn, and the words that name them.
WORDS = {
    "package": ["Package", "pack", "socket"], "die": ["Die"], "group": ["Group"], "l3": ["L3Cache", "l3"], "l2": ["L2Cache", "l2"],
    "core": ["Core"], "pu": ["PU"], "numa": ["NUMANode", "numa", "node"], "machine": ["machine"],
}


class Machine:
    """The layers of a described machine: their kinds, how many objects each has, and the depth that carries the memory."""

    def __init__(self, description):
        """Reads a description without attributes."""
        self.kinds, self.counts, self.memory = ["machine"], [1], None
        for item in description.replace("[", " [").split():
            if item.startswith("["):
                self.memory = len(self.kinds) - 1
            else:
                self.add(*item.rpartition(":")[::2])
        untyped = {len(self.kinds) - 2: "core", len(self.kinds) - 1: "pu"}
        self.kinds = [kind or untyped.get(depth, "group") for depth, kind in enumerate(self.kinds)]

    def add(self, word, arity):
        """Adds a layer below the others; a level of memory is a group that carries it."""
        kind = kind_of(word) if word else None
        if kind == "numa":
            kind, self.memory = "group", len(self.kinds)
        self.kinds.append(kind)
        self.counts.append(self.counts[-1] * int(arity))

    def depth(self, word):
        """The depth that a word names in a plan."""
        kind, number = kind_of(word), word.lower().removeprefix("group")
        if kind == "numa":
            return self.memory
        if kind == "group" and number:
            return [depth for depth, kind in enumerate(self.kinds) if kind == "group"][int(number)]
        return self.kinds.index(kind)

    def object_over(self, pu, depth):
        """The object of a depth over a PU."""
        return pu * self.counts[depth] // self.counts[-1]

    def spread(self, share, depth=0, index=0):
        """The first PU of each of the masks that an object's share is."""
        if share <= 1 or depth == len(self.counts) - 1:
            return [index * self.counts[-1] // self.counts[depth]] * share
        arity, places = self.counts[depth + 1] // self.counts[depth], []
        for child in range(arity):
            more = -(-(child + 1) * share // arity) - -(-child * share // arity)
            places += self.spread(more, depth + 1, index * arity + child)
        return places


def kind_of(word):
    """The kind of layer that a word names."""
    lower = word.lower()
    if lower.startswith("group"):
        return "group"
    return next(kind for kind, words in WORDS.items() if lower in [each.lower() for each in words])


class Section:
    """A section of the input: where its caller stands, its commands, and what stands behind them."""

    def __init__(self, place, commands, rest=b""):
        """A place is a PU's number, spelled in one of several ways, or a star."""
        self.place, self.commands, self.rest = place, commands, rest

    def text(self):
        """The section as it is handed in."""
        body = b"".join(self.commands) + self.rest
        return b"worker %s %d\n%s\n" % (self.place.encode(), len(body), body)


class Case:
    """A plan on a machine with the sections of its callers."""

    def __init__(self, description, levels, kinds, keeps, sections, pus):
        """Levels are names; keeps are those of the levels below the top; pus has None where a caller has a star."""
        self.description, self.levels, self.kinds, self.keeps, self.sections = description, levels, kinds, keeps, sections
        machine = Machine(description)
        starred = machine.spread(len(sections))
        self.pus = [starred[w] if pu is None else pu for w, pu in enumerate(pus)]
        over = [[machine.object_over(pu, machine.depth(name)) for name in levels] for pu in self.pus]
        ranks = [sorted({path[level] for path in over}) for level in range(len(levels))]
        self.paths = [[ranks[level].index(number) for level, number in enumerate(path)] for path in over]

    def given(self):
        """The input."""
        return b"".join(section.text() for section in self.sections)

    def walked(self):
        """The text that a walk prints."""
        store, lines = Store(), []
        places = [iter(section.commands) for section in self.sections]
        turns = walked_turns(self.paths, self.kinds, self.keeps, [len(section.commands) for section in self.sections])
        for i, (caller, climb, tests, left) in enumerate(turns):
            command = next(places[caller])
            numbers = b"turn %d caller %d pu %d climb %d tests %d left %d" % (i, caller, self.pus[caller], climb, tests, left)
            lines.append(b'%s "%s" "%s"\n' % (numbers, printed(command), printed(store.answer(command))))
        for w, section in enumerate(self.sections):
            lines.append(b"caller %d pu %d commands %d rest %d\n" % (w, self.pus[w], len(section.commands), len(section.rest)))
        return b"".join(lines)

    def marked_fault(self, text):
        """Why a text is no run of this plan and these sections with the receipts of its turns behind it, or None."""
        at = text.find(b"receipts 0")
        if at < 0 or text[at - 1 : at] != b"\n":
            return "no lines of receipts" if self.sections else self.fault(text)
        if text[at:] != receipts_of(text[:at]):
            return "other receipts than the turns tell"
        return self.fault(text[:at])

    def fault(self, text):
        """Why a text is no run of this plan and these sections, or None."""
        commands = [section.commands for section in self.sections]
        return fault(commands, text, self.pus, [len(section.rest) for section in self.sections], self.paths, self.keeps)


def receipts_of(text):
    """The lines of receipts that belong to the lines of turns of a text."""
    turns = {}
    for line in text.splitlines():
        words = line.split(b" ", 4)
        if words[0] == b"turn":
            turns.setdefault(int(words[3]), []).append(words[1])
        elif words[0] == b"caller":
            turns.setdefault(int(words[1]), [])
    return b"".join(b" ".join([b"receipts", b"%d" % caller, *turns[caller]]) + b"\n" for caller in sorted(turns))


def draw_word(draw, kind):
    """A word for a kind of layer, in one case or another."""
    word = draw.choice(WORDS[kind])
    return draw.choice([word, word, word.lower(), word.upper()])


def draw_items(draw):
    """The kinds of up to eight layers below the machine, and the items that describe them, some untyped."""
    kinds = [kind for kind in list(WORDS)[:6] if draw.random() < 0.6]
    if "group" in kinds and draw.random() < 0.4:
        kinds.insert(draw.randrange(len(kinds)), "group")
    items = []
    for kind in kinds:
        is_untyped = kind in ("group", "core") and draw.random() < 0.3
        items.append(("" if is_untyped else f"{draw_word(draw, kind)}:") + draw.choice("1223"))
    return kinds, items + [draw.choice(["PU:1", "pu:1", "1", "PU:2", "2", "PU:4"])]


def draw_description(draw):
    """A description of at most 512 PUs, at times with memory: a level that carries it, or an item behind a level."""
    kinds, items = draw_items(draw)
    groups = [place for place, kind in enumerate(kinds) if kind == "group"]
    memory = draw.choice(["level", "item", "none"])
    if memory == "level" and groups:
        place = draw.choice(groups)
        items[place] = f"{draw_word(draw, 'numa')}:{items[place].rpartition(':')[2]}"
    elif memory == "item":
        items.insert(draw.randrange(len(items)), "[NUMANode]")
    description = " ".join(items)
    return description if Machine(description).counts[-1] <= 512 else draw_description(draw)


def name_of(draw, machine, depth):
    """A word that names a depth in a plan or in a place."""
    if depth == machine.memory and draw.random() < 0.3:
        return draw_word(draw, "numa")
    groups = [place for place, kind in enumerate(machine.kinds) if kind == "group"]
    if depth in groups and (len(groups) > 1 or draw.random() < 0.5):
        return f"group{groups.index(depth)}"
    return draw_word(draw, machine.kinds[depth])


def place_of(draw, machine, pu):
    """A word for the place of a PU."""
    depth = draw.randrange(len(machine.kinds))
    above = machine.object_over(pu, depth)
    within = pu - above * machine.counts[-1] // machine.counts[depth]
    part = f"{name_of(draw, machine, depth)}:{above}.pu:{within}"
    return draw.choice([part, f"pu:{pu}", f"PU:0{pu}", f"0x{1 << pu:x}" if pu < 32 else part])


def draw_section(draw, place, most):
    """A section of some commands, at times with a quit or with a command that is cut short behind them."""
    commands = [draw_command(draw) for _ in range(draw.randint(0, most))]
    kind, rest = draw.randrange(12), b""
    if kind == 0 and commands:
        commands[-1] = b"quit\r\n"
        rest = b"".join(draw_command(draw) for _ in range(draw.randrange(3)))
    elif kind == 1:
        rest = draw.choice([b"get k0", b"set k1 0 0 5\r\nab\r\n", b"\r", b"quit"])
    return Section(place, commands, rest)


def draw_case(draw, most):
    """A plan of at most so many levels, with its sections."""
    description = draw_description(draw)
    machine = Machine(description)
    count = min(draw.randint(1, most), len(machine.kinds))
    depths = sorted(draw.sample(range(1, len(machine.kinds)), count - 1), reverse=True) + [0]
    keeps = [draw.choice([0, 1, 2, 3, 128]) for _ in depths[1:]]
    if draw.random() < 0.3:
        keeps = keeps[:1] * len(keeps)
    near = draw.sample(range(machine.counts[-1]), draw.randint(1, min(8, machine.counts[-1])))
    pus = [draw.choice([None, *near, *near]) for _ in range(draw.randint(1, 24))]
    sections = []
    for pu in pus:
        place = "*" if pu is None else place_of(draw, machine, pu)
        sections.append(draw_section(draw, place, draw.choice([1, 3, 6, 12])))
    names = [name_of(draw, machine, depth) for depth in depths]
    kinds = draw.choices(list(LOCKS), k=count) if draw.random() < 0.9 else ["mcs"] * count
    return Case(description, names, kinds, keeps, sections, pus)


def draw_words(draw, case):
    """The words of a case, in one of the ways in which they can be said."""
    levels, locks, keeps = ",".join(case.levels), "-".join(case.kinds), ",".join(map(str, case.keeps))
    if len(set(case.keeps)) == 1 and draw.random() < 0.5:
        keeps = str(case.keeps[0])
    usual = {"--levels": "machine", "--locks": "-".join(["mcs"] * len(case.kinds)), "--keep": "128"}
    said = []
    for option, value in draw.sample([("--levels", levels), ("--locks", locks), ("--keep", keeps or "128")], 3):
        if value.lower() != usual[option] or draw.random() < 0.3:
            said.append(draw.choice([[option, value], [f"{option}={value}"]]))
    said.insert(draw.randrange(len(said) + 1), [case.description])
    return [word for words in said for word in words]


# Texts that were worked out by hand: description, levels, locks, keeps, the callers' PUs (None for a star) and commands, and the text.
GET = [b"get a\r\n"]
SETS = [[b"set k 0 0 1\r\n%s\r\n" % block, b"get k\r\n"] for block in (b"a", b"b")]
DEEP = "Package:2 Die:1 L3Cache:2 Core:2 PU:1"
WORKED = [
    ("Package:1 Core:2 PU:1", "package,machine", "mcs-mcs", [1], [None] * 2, [GET] * 2, r"""
turn 0 caller 0 pu 0 climb 1 tests 1 left 0 "get a\r\n" "END\r\n"
turn 1 caller 1 pu 1 climb 0 tests 0 left 1 "get a\r\n" "END\r\n"
caller 0 pu 0 commands 1 rest 0
caller 1 pu 1 commands 1 rest 0
"""),
    ("Package:1 Core:2 PU:1", "package,machine", "mcs-mcs", [0], [None] * 2, [GET] * 2, r"""
turn 0 caller 0 pu 0 climb 1 tests 1 left 1 "get a\r\n" "END\r\n"
turn 1 caller 1 pu 1 climb 1 tests 0 left 1 "get a\r\n" "END\r\n"
caller 0 pu 0 commands 1 rest 0
caller 1 pu 1 commands 1 rest 0
"""),
    ("Package:1 Core:3 PU:1", "package,machine", "mcs-mcs", [1], [None] * 3, [GET] * 3, r"""
turn 0 caller 0 pu 0 climb 1 tests 1 left 0 "get a\r\n" "END\r\n"
turn 1 caller 1 pu 1 climb 0 tests 1 left 1 "get a\r\n" "END\r\n"
turn 2 caller 2 pu 2 climb 1 tests 0 left 1 "get a\r\n" "END\r\n"
caller 0 pu 0 commands 1 rest 0
caller 1 pu 1 commands 1 rest 0
caller 2 pu 2 commands 1 rest 0
"""),
    (DEEP, "core,l3,die,package,machine", "tkt-mcs-clh-hem-tkt", [128] * 4, [0, 0, 1, 2, 7], [GET] * 5, r"""
turn 0 caller 0 pu 0 climb 4 tests 1 left 0 "get a\r\n" "END\r\n"
turn 1 caller 1 pu 0 climb 0 tests 2 left 1 "get a\r\n" "END\r\n"
turn 2 caller 2 pu 1 climb 1 tests 4 left 2 "get a\r\n" "END\r\n"
turn 3 caller 3 pu 2 climb 2 tests 0 left 4 "get a\r\n" "END\r\n"
turn 4 caller 4 pu 7 climb 4 tests 0 left 4 "get a\r\n" "END\r\n"
caller 0 pu 0 commands 1 rest 0
caller 1 pu 0 commands 1 rest 0
caller 2 pu 1 commands 1 rest 0
caller 3 pu 2 commands 1 rest 0
caller 4 pu 7 commands 1 rest 0
"""),
    ("PU:2", "machine", "mcs", [], [None] * 2, SETS, r"""
turn 0 caller 0 pu 0 climb 0 tests 0 left 0 "set k 0 0 1\r\na\r\n" "STORED\r\n"
turn 1 caller 1 pu 1 climb 0 tests 0 left 0 "set k 0 0 1\r\nb\r\n" "STORED\r\n"
turn 2 caller 0 pu 0 climb 0 tests 0 left 0 "get k\r\n" "VALUE k 0 1\r\nb\r\nEND\r\n"
turn 3 caller 1 pu 1 climb 0 tests 0 left 0 "get k\r\n" "VALUE k 0 1\r\nb\r\nEND\r\n"
caller 0 pu 0 commands 2 rest 0
caller 1 pu 1 commands 2 rest 0
"""),
]


def worked_cases():
    """The cases of the texts that were worked out by hand, with the texts, which are the same where the locks count their waiters."""
    for description, levels, locks, keeps, pus, commands, text in WORKED:
        sections = [Section("*" if pu is None else f"pu:{pu}", given) for pu, given in zip(pus, commands)]
        for kinds in (locks.split("-"), [kind + "c" for kind in locks.split("-")]):
            yield Case(description, levels.split(","), kinds, keeps, sections, pus), text.lstrip().encode()


def shown(said, case, words, **texts):
    """A difference, whole: the words, the callers' nodes at each level, the input and the texts."""
    lines = [said, f"words: {words}", f"paths: {case.paths}", f"input: {case.given()}"]
    for name, text in texts.items():
        lines += [f"{name}:", text.decode("latin-1")]
    return "\n".join(lines)


def printed_by(program, words, given):
    """What a run of the program printed, with its status and its line of errors behind it where it didn't end well."""
    try:
        ended = subprocess.run([program, "run", *words], input=given, capture_output=True, timeout=60)
    except subprocess.TimeoutExpired:
        return b"no end in 60 seconds\n"
    wrong = b"status %d\n%s" % (ended.returncode, ended.stderr) if ended.returncode or ended.stderr else b""
    return ended.stdout + wrong


def worked_difference(case, text):
    """Where the model differs from a text that was worked out by hand."""
    model = case.walked()
    return None if model == text else shown("the model differs from what was worked out by hand", case, [], hand=text, model=model)


def walk_difference(program, case, words):
    """Where a walk of the program differs from the model, whose text has to be a run; without a program, the model alone is asked."""
    model = case.walked()
    wrong = case.fault(model)
    if wrong:
        return shown(f"the model's text isn't a run: {wrong}", case, words, model=model)
    text = printed_by(program, ["--walk", *words], case.given()) if program else model
    return None if text == model else shown("the walk differs from the model", case, words, program=text, model=model)


def threads_difference(program, case, words, fault=Case.fault):
    """Why what the callers printed on threads isn't a run."""
    text = printed_by(program, words, case.given())
    wrong = fault(case, text)
    return shown(f"the text on threads isn't a run: {wrong}", case, words, program=text) if wrong else None


def shared_words(number):
    """Words for callers that share threads: one to five threads, and up to three commands at a time."""
    return ["--threads", str(1 + number % 5), "--quantum", str(1 + number % 3)]


def is_wrong(said, found):
    """Prints how many of what was asked had no difference, and the first difference; answers whether there is one."""
    differences = [(number, difference) for number, difference in enumerate(found) if difference]
    print(f"{len(found) - len(differences)} of {len(found)} {said}")
    for number, difference in differences[:1]:
        print(f"number {number}: {difference}")
    return bool(differences)


def main():
    """Reads the words and checks what they ask for."""
    words = argparse.ArgumentParser()
    words.add_argument("--clof", default=PROGRAM)
    words.add_argument("--seed", type=int, default=1)
    words.add_argument("--walks", type=int, default=500)
    words.add_argument("--threads", type=int, default=200)
    words.add_argument("--levels", type=int, default=5, help="at most so many levels")
    words.add_argument("--rows", action="store_true")
    asked = words.parse_args()
    program = None if asked.rows else asked.clof
    if program and not os.access(program, os.X_OK):
        sys.exit(f"{program} isn't there; ./clof builds it")
    draw, cases = random.Random(asked.seed), []
    for _ in range(max(asked.walks, 0 if asked.rows else asked.threads)):
        case = draw_case(draw, asked.levels)
        cases.append((case, draw_words(draw, case)))
    wrong = is_wrong("texts that were worked out by hand are the model's", [worked_difference(*each) for each in worked_cases()])
    said = "walks print what the model does" if program else "walks of the model are runs"
    wrong |= is_wrong(f"{said}, drawn from seed {asked.seed}", [walk_difference(program, *each) for each in cases[: asked.walks]])
    if program:
        some = cases[: asked.threads]
        found = [threads_difference(program, *each) for each in some]
        wrong |= is_wrong(f"texts on threads are runs, drawn from seed {asked.seed}", found)
        found = [threads_difference(program, case, shared_words(at) + words) for at, (case, words) in enumerate(some)]
        wrong |= is_wrong("texts on threads that callers share are runs, of the same inputs", found)
        found = [threads_difference(program, case, ["--receipts", *words], Case.marked_fault) for case, words in some]
        wrong |= is_wrong("texts with receipts are runs with the receipts of their turns, of the same inputs", found)
    sys.exit(1 if wrong else 0)


if __name__ == "__main__":
    main()
