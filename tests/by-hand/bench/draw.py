#!/usr/bin/env python3
"""Time against units of the generated questions, as a picture.

usage: draw.py CURVE SVG WHERE     WHERE says in words how it was run

CURVE has lines of units and nanoseconds: exported ('-' in every line where it was not asked), plain, original.
"""
import math
import pathlib
import sys

sys.path.insert(0, str(pathlib.Path(__file__).resolve().parents[2]))
from shared.picture import panel, save  # noqa: E402
from shared.script import refuse, text  # noqa: E402

USAGE = "draw.py CURVE SVG WHERE"
NAMES = ["exported function", "plain program", "original Rust"]
COLOURS = ["#0b6e4f", "#1f4e9c", "#b3541e"]


def series(rows, shown):
    return [(f"{NAMES[which]}, microseconds", COLOURS[which], [(row[0], row[1 + which]) for row in rows]) for which in shown]


def amount(word):
    found = float(word)
    if not 0 < found < math.inf:
        raise ValueError(f"not a number above 0: {word}")
    return found


def read(curve):
    """For each line its units, and the time of each contender; None where the exported function was not asked."""
    for line in curve.splitlines():
        words = line.split()
        if len(words) != 1 + len(NAMES):
            raise ValueError(f"not a line of a curve: {line[:80]}")
        units, exported, *others = words
        yield [amount(units), None if exported == "-" else amount(exported), *map(amount, others)]


def arguments():
    """The curve's rows, the picture's name, and how it was run."""
    curve, svg = map(pathlib.Path, sys.argv[1:3] if len(sys.argv) == 4 else ["", ""])
    if not curve.is_file() or not svg.parent.is_dir() or svg.is_dir():
        refuse(USAGE)
    try:
        rows = list(read(text(curve, USAGE)))
    except ValueError as fault:
        refuse(USAGE, fault)
    if len({row[1] is None for row in rows}) > 1:
        refuse(USAGE, "the exported function was asked in some lines alone")
    return rows or refuse(USAGE, "no line in CURVE"), svg, sys.argv[3]


def main():
    rows, svg, where = arguments()
    asked = [which for which in range(3) if rows[0][1 + which] is not None]
    panels = [panel(place, "units charged", series(rows, shown), 1000)
              for place, shown in enumerate(([which for which in asked if which < 2], [2]))]
    try:
        save(svg, f"Well-typed questions at budget 8,192, time by units charged. Run {where}.", *panels)
    except OSError:
        refuse(USAGE, f"{svg} can't be written")


main()
