"""Recorded answers: the files that have them, and what a line of these says."""
import collections
import pathlib
import re

from shared.script import files, refuse

ROOT = pathlib.Path(__file__).resolve().parents[2]
FILES = [ROOT / line for line in (ROOT / "tests/shared/recorded.txt").read_text(encoding="utf-8").splitlines() if not line.startswith("#")]
ANSWERS, LETTERS, GUARDS, QUESTIONS = FILES
FORM = re.compile(r"[0-9]+ [0-9]+ [0-9]+ \|[0-9 ]*\| [0-9]+ [0-9]+ [0-9]+ [0-9]+ \|[0-9 ]*")

# a recorded answer, its parts as they are written
Recorded = collections.namedtuple("Recorded", "sizes question numbers report")


def recorded(lines):
    """The answers of a file's lines; a line of another form is a ValueError."""
    for line in lines:
        if line.strip() and not line.startswith("#"):
            if not FORM.fullmatch(line):
                raise ValueError(f"not a recorded answer: {line[:80]}")
            yield Recorded(*(part.strip() for part in line.split("|")))


def of(file):
    return recorded(file.read_text(encoding="utf-8").splitlines())


def nodes(tree):
    """Rule, number of children and place of each node of a tree's words, in written order; after them come five sections, each after its count.
    A node past the words is a ValueError."""
    at = 0
    while at < len(tree):
        yield tree[at:at + 3]
        at += 3
        for _ in range(5):
            at += 1 + int(tree[at]) if at < len(tree) else 1
    if at > len(tree):
        raise ValueError(f"a node past the words of a tree: {' '.join(tree)[:400]}")


def answers(found, usage):
    """The recorded answers of files, each once; a file of something else is refused as a mistake in the arguments."""
    try:
        return list(dict.fromkeys(line for file in found for line in of(file)))
    except (OSError, ValueError) as fault:
        return refuse(usage, fault)


def given(usage):
    """The recorded answers of the files that are the script's arguments."""
    return answers(files(usage), usage)
