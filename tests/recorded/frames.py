#!/usr/bin/env python3
"""frames.py ANSWERS..: recorded answers as frames for tests/host/compare.c, each at its own sizes, and at the desk program's where those
give the same reply."""
import pathlib
import struct
import sys

sys.path.insert(0, str(pathlib.Path(__file__).resolve().parent.parent))
from shared.desk import SIZES, same_at_the_desk  # noqa: E402
from shared.recorded import given  # noqa: E402

# no budget needs more work; longer work changes no reply
MOST_WORK = 266_240 + 300


def frame(sizes, line):
    budget, work, room = map(int, sizes.split())
    question, numbers, report = (list(map(int, part.split())) for part in (line.question, line.numbers, line.report))
    words = [budget, min(work, MOST_WORK), room, len(question), *question, *numbers, len(report), *report]
    return struct.pack(f"<{len(words)}I", *words)


def main():
    for line in given("frames.py ANSWERS.."):
        sys.stdout.buffer.write(frame(line.sizes, line))
        if line.sizes != SIZES and same_at_the_desk(line):
            sys.stdout.buffer.write(frame(SIZES, line))


main()
