#!/usr/bin/env python3
"""Makes the first corpus: the recorded questions with their own sizes, and deep and vast ones at two budgets.

usage: corpus.py FOLDER     new, or with nothing in it but seeds

Sides and offsets vary; of 16, one has a reply of less than 16 bytes, and one a question that isn't whole words.
"""
import pathlib
import struct
import sys

ROOT = pathlib.Path(__file__).resolve().parents[2]
sys.path[:0] = [str(ROOT), str(ROOT / "stack")]
from families import LOOP, nested, question  # noqa: E402
from shared.recorded import ANSWERS, LETTERS, of  # noqa: E402
from shared.script import makeable, refuse  # noqa: E402

USAGE = "corpus.py FOLDER"


def first_bytes(number, budget, work, room):
    """fuzz.h's struct chosen; both functions are called."""
    more = work - (32 * budget + 4096)
    reply = number // 16 % 16 if number % 16 == 5 else 16 + 4 * min(room, 4096) + number % 4
    return struct.pack("<HBBHHbBBBBBBB", min(budget, 65535), 3, number % 32, min(room, 65535), reply,
                       max(-128, min(more, 127)), number // 32 % 16, 0, number // 3 % 4, number % 256, number // 7 % 256, 0, 0)


def sizes(number, answer):
    """The recorded ones; 7 of 8 that have the greatest budget get no more than they use, since zeroing work takes most of a call's time."""
    budget, work, room = map(int, answer.sizes.split())
    units = int(answer.numbers.split()[3])
    if budget == 8192 and number % 8:
        budget, work = max(1, units), work - 32 * (8192 - max(1, units))
    return budget, work, room


def arrows(leaves, leaf):
    return [5, *leaf] * (leaves - 1) + leaf


def vast(copies, lets, part):
    """A type substituted into copies x copies places, then named `lets` times: with 45, 40, 700 the report passes 4,294,967,295 words."""
    named = [word for name in range(lets) for word in (24, 7 + name, 16, 6)]
    expr = [24, 6, 19, 19, 16, 5, *arrows(copies, [3, 2]), *arrows(part, [1]), *named, 22, 0, 0]
    return question(1, [32, 5, 6, 1, 6, 2, *arrows(copies, [3, 1])], expr)


def asked():
    """Budget, work, room and words of each seed."""
    for number, answer in enumerate([*of(ANSWERS), *of(LETTERS)]):
        yield *sizes(number, answer), [int(word) for word in answer.question.split()]
    large = [words for _, words in nested()] + [vast(45, 40, 700), vast(10, 10, 50), question(1, (), LOOP)]
    for budget in (384, 8192):
        for words in large:
            yield budget, 32 * budget + 4096, 65535, words


def main():
    folder = pathlib.Path(*sys.argv[1:2])
    if len(sys.argv) != 2 or not folder.name or folder.name.startswith("-") or not folder.parent.is_dir() or not makeable(folder):
        refuse(USAGE)
    if folder.is_dir() and not all(entry.name.startswith("seed-") for entry in folder.iterdir()):
        refuse(USAGE, f"{folder} has other things in it than seeds")
    folder.mkdir(exist_ok=True)
    for number, (budget, work, room, words) in enumerate(asked()):
        packed = struct.pack(f"<{len(words)}I", *words)
        cut = len(packed) - (number // 16 % 4 if number % 16 == 9 else 0)
        (folder / f"seed-{number}").write_bytes(first_bytes(number, budget, work, room) + packed[:cut])


main()
