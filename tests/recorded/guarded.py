#!/usr/bin/env python3
"""That each guard tells its fault: the definition with that fault gives another reply to one of the guard's questions.

usage: guarded.py GUARDS

GUARDS is a file of recorded answers in groups. Above the answers of a group stand its faults, '# FILE: OLD => NEW', edits of a line of
crates/definition/specs/FILE.antt. Each is made in a copy, which must still check; the prover must then refuse one of the group's answers.
The last line counts the faults.
"""
import concurrent.futures
import os
import pathlib
import re
import sys
import tempfile

from computed import check_within, write_within

sys.path.insert(0, str(pathlib.Path(__file__).resolve().parent.parent))
from shared.recorded import recorded  # noqa: E402
from shared.script import files, refuse, verdict  # noqa: E402

USAGE = "guarded.py GUARDS"
FAULT = re.compile(r"# (\w+): (.+) => (.+)")


def groups(text):
    """The faults of each group, and its answers."""
    faults, lines, found = [], [], []
    for line in [*text.splitlines(), "#"]:
        if line.startswith("#") and lines:
            found.append((faults, list(recorded(lines))))
            faults, lines = [], []
        match = FAULT.fullmatch(line)
        if match:
            faults.append(match.groups())
        elif line and not line.startswith("#"):
            lines.append(line)
    return found


def told(fault, lines):
    """None where the prover refuses an answer of the definition with the fault; else what is wrong."""
    name, old, new = fault
    with tempfile.TemporaryDirectory() as room:
        folder = pathlib.Path(room) / "definition"
        write_within(folder, lines)
        file = folder / f"specs/{name}.antt"
        text = file.read_text(encoding="utf-8") if file.is_file() else ""
        if text.count(old) != 1:
            return f"stands {text.count(old)} times in {name}"
        file.write_text(text.replace(old, new), encoding="utf-8")
        said = check_within(folder)
    if re.search(r"/specs/\w+\.antt:\d+:\d+: error", said):
        return "the definition does not check with it"
    return None if re.search(r"/proofs/Computed\.antt:\d+:\d+: error: `answer\d+`", said) and "logic=not-proved" in said else "no answer of its group tells it"


def main():
    try:
        found = groups(files(USAGE, most=1)[0].read_text(encoding="utf-8"))
    except ValueError as fault:
        refuse(USAGE, fault)
    asked = [(fault, lines) for faults, lines in found for fault in faults]
    with concurrent.futures.ThreadPoolExecutor(os.cpu_count()) as pool:
        wrong = list(pool.map(lambda pair: told(*pair), asked))
    bare = [lines[0].question for faults, lines in found if not faults]
    for (fault, _), why in zip(asked, wrong):
        if why:
            print(f"guarded: {fault[0]}: {fault[1]} => {fault[2]}: {why}")
    for question in bare:
        print(f"guarded: no fault is named above {question}")
    failed = sum(map(bool, wrong)) + len(bare)
    verdict(len(asked) + len(bare) - failed, failed)


main()
