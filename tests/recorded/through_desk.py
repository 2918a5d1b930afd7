#!/usr/bin/env python3
"""through_desk.py ANSWERS..: the recorded answers that the desk's sizes do not change, through the desk program (after `rt ci`)."""
import pathlib
import sys

sys.path.insert(0, str(pathlib.Path(__file__).resolve().parent.parent))
from shared.desk import ask_all, same_at_the_desk  # noqa: E402
from shared.recorded import given  # noqa: E402
from shared.script import verdict  # noqa: E402


def main():
    lines = given("through_desk.py ANSWERS..")
    asked = [line for line in lines if same_at_the_desk(line)]
    differ = [line for line, said in zip(asked, ask_all(asked)) if said != f"{line.numbers}\n{line.report}\n"]
    for line in differ:
        print(f"differs: {line.question[:400]}")
    print(f"desk: {len(lines) - len(asked)} recorded answers left out (other sizes decide their reply)")
    verdict(len(asked) - len(differ), len(differ))


main()
