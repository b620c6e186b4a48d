#!/usr/bin/env python3
"""Draws the first table that bench/cohorts.sh prints, as bars in an SVG: a group of bars for each row, a bar for each number of threads,
and beside each bar its number.

  bench/cohorts.sh > table && bench/cohorts_picture.py < table > docs/cohorts.svg
"""
import html
import itertools
import sys

LEFT, WIDTH, BAR, GAP, HEAD = 170, 520, 14, 12, 64
COLOURS = ["#9ecae1", "#4292c6", "#084594"]


def read(lines):
    """The line on the machine, the heads of the columns, and the rows: a name and its numbers."""
    machine, heads, *rows = [line.rstrip("\n") for line in itertools.takewhile(str.strip, lines)]
    columns = [head.strip() for head in heads.replace("ns a hold", "").split("  ") if head.strip()]
    table = []
    for row in rows:
        name, *numbers = row.split()
        if not 0 < len(numbers) <= len(columns):
            sys.exit(f"the row {name} has {len(numbers)} numbers for {len(columns)} columns")
        table.append((name, [float(number) for number in numbers]))
    return machine, columns, table


def text(x, y, words, more=""):
    """A line of text."""
    return f'<text x="{x}" y="{y}"{more}>{html.escape(words)}</text>'


def drawn(machine, columns, table):
    """The picture, as lines of SVG."""
    longest = max(number for _, numbers in table for number in numbers)
    high = HEAD + len(table) * (len(columns) * BAR + GAP)
    yield (f'<svg xmlns="http://www.w3.org/2000/svg" width="{LEFT + WIDTH + 80}" height="{high}" '
           f'font-family="sans-serif" font-size="11">')
    yield '<rect width="100%" height="100%" fill="white"/>'
    yield text(10, 18, "nanoseconds a hold (median)", ' font-size="13"')
    yield text(10, 34, machine, ' fill="#555"')
    for place, column in enumerate(columns):
        x = LEFT + place * 100
        yield f'<rect x="{x}" y="42" width="10" height="10" fill="{COLOURS[place % len(COLOURS)]}"/>'
        yield text(x + 14, 51, column)
    y = HEAD
    for name, numbers in table:
        yield text(LEFT - 8, y + len(numbers) * BAR / 2 + 4, name, ' text-anchor="end"')
        for place, number in enumerate(numbers):
            wide = number / longest * WIDTH
            yield f'<rect x="{LEFT}" y="{y}" width="{wide:.1f}" height="{BAR - 2}" fill="{COLOURS[place % len(COLOURS)]}"/>'
            yield text(f"{LEFT + wide + 4:.1f}", y + BAR - 4, f"{number:.1f}")
            y += BAR
        y += GAP
    yield "</svg>"


if __name__ == "__main__":
    print("\n".join(drawn(*read(sys.stdin))))
