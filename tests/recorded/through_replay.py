#!/usr/bin/env python3
"""through_replay.py ANSWERS..: recorded answers through the replay program, in one run, at their own sizes (after `rt ci`)."""
import pathlib
import struct
import subprocess
import sys

sys.path.insert(0, str(pathlib.Path(__file__).resolve().parent.parent))
from shared.programs import program  # noqa: E402
from shared.recorded import given  # noqa: E402
from shared.script import verdict  # noqa: E402

# what the program lends
MOST_ROOM = 4_096


def words(text):
    return [int(word) for word in text.split()]


def frame(line):
    budget, work, room = words(line.sizes)
    question = words(line.question)
    return struct.pack(f"<{4 + len(question)}I", budget, min(work, 0xFFFFFFFF), room, len(question), *question)


def reply(line):
    told = words(line.numbers) + words(line.report)
    return struct.pack(f"<{len(told)}I", *told)


def main():
    lines = given("through_replay.py ANSWERS..")
    asked = [line for line in lines if words(line.sizes)[2] <= MOST_ROOM]
    ran = subprocess.run(program("replay"), input=b"".join(map(frame, asked)), stdout=subprocess.PIPE, check=True)
    at = 0
    for number, line in enumerate(asked):
        wanted = reply(line)
        if ran.stdout[at:at + len(wanted)] != wanted:
            print(f"replay: answer {number} differs: {line.sizes} | {line.question[:400]}")
            verdict(number, len(asked) - number)
        at += len(wanted)
    print(f"replay: {len(lines) - len(asked)} recorded answers left out (more room than is lent), "
          f"{len(ran.stdout) - at} bytes more than was asked for")
    verdict(len(asked), int(at != len(ran.stdout)))


main()
