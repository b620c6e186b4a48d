#!/usr/bin/env python3
"""Works out the texts at the limits that the tests of crates/clof_trials compare by their length and checksum.

Each text is made from its definition by plain loops, and nothing of the program is used. The checksum is FNV-1a of 64 bits over the
text's bytes (Fowler, Noll and Vo; offset basis 14695981039346656037, prime 1099511628211). Prints a line a text: name, length, checksum.
"""


def checksum(text):
    value = 14695981039346656037
    for byte in text.encode():
        value = (value ^ byte) * 1099511628211 % 2**64
    return value


def hexadecimal(numbers):
    """A set's words of 32 bits, the highest first; a word of zero is empty, but for the last, which is then 0x0."""
    whole = sum(1 << number for number in set(numbers))
    words = []
    while whole:
        words.append(whole % 2**32)
        whole >>= 32
    if not words:
        return "0x0"
    texts = [f"0x{word:08x}" if word else "" for word in words]
    texts[0] = texts[0] or "0x0"
    return ",".join(reversed(texts))


def taskset(numbers):
    return f"0x{sum(1 << number for number in set(numbers)):x}"


def lines(texts):
    return "".join(text + "\n" for text in texts)


def paths(counts, names):
    """The paths of objects below each other, each named by its number within the object above."""
    found = [""]
    for count, name in zip(counts, names):
        found = [f"{path}{'.' if path else ''}{name}:{number}" for path in found for number in range(count)]
    return found


def tree(arities):
    """The topology text of groups over L2, Core and PU, one object a line."""
    printed, numbers = [], [0] * (len(arities) + 1)

    def under(depth):
        above = len(arities) - depth
        name = "Machine" if not depth else ["PU", "Core", "L2"][above] if above < 3 else f"Group{depth - 1}"
        number = numbers[depth]
        numbers[depth] += 1
        physical = f" (P#{number})" if name == "PU" else ""
        printed.append("  " * depth + f"{name} L#{number}{physical}")
        if depth < len(arities):
            for _ in range(arities[depth]):
                under(depth + 1)

    under(0)
    return printed


def run(sections):
    """A walk of callers with one command each under one lock: each holds it once, in order."""
    turn = 'turn {0} caller {0} pu 0 climb 0 tests 0 left 0 "get a\\r\\n" "END\\r\\n"'
    caller = "caller {0} pu 0 commands 1 rest 0"
    return [turn.format(number) for number in range(sections)] + [caller.format(number) for number in range(sections)]


EVEN = range(0, 4096, 2)
GROUPS = [1] + [2] * 11
TEXTS = {
    "the last number": lines([hexadecimal([4095]), "4095", taskset([4095])]),
    "64 locations": lines([hexadecimal(range(0, 4096, 64))]),
    "64 locations, taskset": lines([taskset(range(0, 4096, 64))]),
    "2,048 numbers": lines([",".join(map(str, EVEN))]),
    "2,048 paths": lines([" ".join(f"Core:{core}.PU:0" for core in range(2048))]),
    "2,048 largest objects": lines([" ".join(f"PU:{number}" for number in EVEN)]),
    "32 paths of five types": lines([" ".join(paths([2] * 5, ["Package", "Die", "L3Cache", "L2Cache", "Core"]))]),
    "4,096 shares": lines(hexadecimal([number]) for number in range(4096)),
    "4,096 shares, taskset, reversed": lines(taskset([number]) for number in reversed(range(4096))),
    "4,096 shares of two": lines([hexadecimal([0])] * 2048 + [hexadecimal([1])] * 2048),
    "16,384 objects": lines(tree(GROUPS + [2, 1, 1])),
    "3 sections": lines(run(3)),
    "256 sections": lines(run(256)),
}

for name, text in TEXTS.items():
    print(f"{name}: {len(text)} {checksum(text)}")
