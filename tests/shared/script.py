"""What the scripts of tests/ and tools/ share: a plain mistake in the arguments, files, folders and numbers as arguments, and the verdict."""
import argparse
import os
import pathlib
import sys


def refuse(usage, why=""):
    """A usage line and status 2."""
    print(f"usage: {usage}" + (f" ({why})" if why else ""), file=sys.stderr)
    sys.exit(2)


def files(usage, least=1, most=None):
    """The arguments as files that are there, else they are refused."""
    found = [pathlib.Path(argument) for argument in sys.argv[1:]]
    if not least <= len(found) <= (most or len(found)) or not all(file.is_file() for file in found):
        refuse(usage)
    return found


def text(file, usage):
    """The text of a file that is an argument; one that can't be read, or is no text, is refused."""
    try:
        return file.read_text(encoding="utf-8")
    except (OSError, ValueError):
        return refuse(usage, f"{file} can't be read, or is no text")


def makeable(folder):
    """Whether a folder is there or can be made: it is tried, and what was made is taken away again. Nothing is made through a dead link."""
    if any(os.path.islink(each) and not os.path.exists(each) for each in (folder, *folder.parents)):
        return False
    whole = pathlib.Path(os.path.realpath(folder))
    new = [each for each in (whole, *whole.parents) if not os.path.lexists(each)]
    try:
        whole.mkdir(parents=True, exist_ok=True)
        return True
    except OSError:
        return False
    finally:
        for each in filter(os.path.isdir, new):
            each.rmdir()


def ours(folder, mark):
    """Whether a folder can be made, or was made by a script that leaves this mark in it: others are left alone."""
    whole = os.path.realpath(folder)
    return os.path.isfile(os.path.join(whole, mark)) if os.path.lexists(whole) else makeable(folder)


def number(least, most, kind=int):
    """What argparse takes for an argument: a number within bounds."""
    def read(word):
        try:
            found = kind(word) if "_" not in word else None
        except ValueError:
            found = None
        if found is None or not least <= found <= most:
            raise argparse.ArgumentTypeError(f"a number from {least} to {most} is wanted")
        return found
    return read


def verdict(passed, failed):
    """The last line, by which the gate goes; nothing tested is a failure."""
    failed += not passed and not failed
    print(f"{passed} passed, {failed} failed", flush=True)
    sys.exit(1 if failed else 0)
