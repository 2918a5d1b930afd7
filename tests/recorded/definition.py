#!/usr/bin/env python3
"""The definition against the recorded answers: the prover computes every recorded question's reply from crates/definition.

usage: definition.py ANSWERS.. FOLDER

Writes a scratch repository into FOLDER (computed.py) and has `rt` check it. FOLDER must be new, or made by this script. The last line
says how many replies were computed.
"""
import pathlib
import shutil
import sys

from computed import check, write

sys.path.insert(0, str(pathlib.Path(__file__).resolve().parent.parent))
from shared.recorded import answers  # noqa: E402
from shared.script import ours, refuse, verdict  # noqa: E402

USAGE = "definition.py ANSWERS.. FOLDER"
# what a folder has that was made here
MADE_HERE = ".made-by-recorded-definition.py"


def arguments():
    *files, folder = map(pathlib.Path, sys.argv[1:] or [""])
    if not files or not all(file.is_file() for file in files):
        refuse(USAGE, "ANSWERS.. are files")
    if folder.name.startswith("-") or folder.suffix or not ours(folder, MADE_HERE):
        refuse(USAGE, f"{folder} can't be made, or is there already and was not made by this script")
    return files, folder.resolve()


def main():
    files, folder = arguments()
    lines = answers(files, USAGE)
    shutil.rmtree(folder, ignore_errors=True)
    write(folder, lines)
    (folder / MADE_HERE).touch()
    computed, told = check(folder)
    if not computed:
        print(told[-4000:])
        print("the definition differs from a recorded answer, or could not be checked")
        verdict(0, len(lines))
    verdict(len(lines), 0)


main()
