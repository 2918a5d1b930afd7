#!/usr/bin/env python3
"""through_parts.py ANSWERS..: the recorded answers that the desk's sizes do not change, section by section, and the tree node by node,
through the parts program (after `rt ci`)."""
import pathlib
import sys

sys.path.insert(0, str(pathlib.Path(__file__).resolve().parent.parent))
from shared.desk import SIZES, ask_all, same_at_the_desk  # noqa: E402
from shared.recorded import given, nodes  # noqa: E402
from shared.script import verdict  # noqa: E402


def no_room_at_the_desk(line):
    """Whether a recorded NoRoom is the desk's reply too: there is no room for the needed length there either."""
    code, _, length, units = map(int, line.numbers.split())
    budget, _, room = map(int, SIZES.split())
    return code == 7 and units <= budget and length > room


def seven_lines(line):
    """What is to be printed, by the counts in the recorded report: the numbers, type, context, tree, a type error's two types, and the rules
    of the tree's nodes."""
    code = int(line.numbers.split()[0])
    places = [0, 1, 2] if code == 0 else [3, 4] if 11 <= code <= 17 else []
    sections = [[] for _ in range(5)]
    words = line.report.split()
    for place in places:
        count = int(words[0])
        sections[place] = words[1:1 + count]
        words = words[1 + count:]
    if words:
        sys.exit(f"words past the sections of a recorded report: {line.question[:400]}")
    return "".join(" ".join(part) + "\n" for part in [line.numbers.split()] + sections + [[rule for rule, _, _ in nodes(sections[2])]])


def main():
    lines = given("through_parts.py ANSWERS..")
    asked = [line for line in lines if same_at_the_desk(line) or no_room_at_the_desk(line)]
    differ = [line for line, said in zip(asked, ask_all(asked, "parts")) if said != seven_lines(line)]
    for line in differ:
        print(f"differs: {line.question[:400]}")
    print(f"parts: {len(lines) - len(asked)} recorded answers left out (other sizes decide their reply)")
    verdict(len(asked) - len(differ), len(differ))


main()
