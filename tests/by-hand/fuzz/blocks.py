#!/usr/bin/env python3
"""Lists where the archive's blocks begin in a linked program.

usage: blocks.py PROGRAM     prints lines of offset from sporeflask_check, function
"""
import pathlib
import re
import subprocess
import sys

sys.path.insert(0, str(pathlib.Path(__file__).resolve().parents[2]))
from shared.programs import x86  # noqa: E402
from shared.script import files, refuse  # noqa: E402

USAGE = "blocks.py PROGRAM"
HEAD = re.compile(r"^([0-9a-f]+) <(.+)>:$")
LINE = re.compile(r"^ *([0-9a-f]+):\t(\S+) *(\S*)")


def of_archive(name):
    return "::" in name or name.startswith("sporeflask_")


def blocks(listing):
    """Every function's start, every target of a jump, and what follows a jump, a return or a trap, in the archive's functions."""
    code, starts, function, begins = {}, set(), "", False
    for line in listing:
        if head := HEAD.match(line):
            function, begins = head[2], True
        elif (found := LINE.match(line)) and of_archive(function):
            at, what, operand = int(found[1], 16), found[2], found[3]
            if not what.startswith(("nop", "data16", "cs", "xchg", "int3")):
                code[at] = function
                starts |= {at} if begins else set()
            if what.startswith("j") and re.fullmatch("[0-9a-f]+", operand):
                starts.add(int(operand, 16))
            begins = what.startswith(("j", "ret", "ud2"))
    return sorted((at, code[at]) for at in starts if at in code), code


def main():
    program = files(USAGE, most=1)[0].resolve()
    listing = subprocess.run([x86("binutils")[0] + "objdump", "-d", "--no-show-raw-insn", str(program)], stdout=subprocess.PIPE, text=True)
    found, code = blocks(listing.stdout.splitlines())
    origin = min((at for at, name in code.items() if name == "sporeflask_check"), default=None)
    if listing.returncode != 0 or origin is None:
        refuse(USAGE, "it is linked with the archive")
    for at, name in found:
        print(at - origin, name)


main()
