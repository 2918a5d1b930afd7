"""Where the programs are that `rt ci` and `rt run` make, and how x86-64 programs are built and run on this machine (x86.sh)."""
import functools
import pathlib
import subprocess
import sys

SHARED = pathlib.Path(__file__).resolve().parent
CRATES = SHARED.parent.parent / "crates"


@functools.cache
def x86(name):
    """The words of a list in x86.sh, which is asked once."""
    told = ["bash", "-euc", '. "$0"; declare -n list="$1"; for word in "${list[@]}"; do echo "$word"; done', str(SHARED / "x86.sh"), name]
    return subprocess.run(told, stdout=subprocess.PIPE, check=True, text=True).stdout.splitlines()


@functools.cache
def program(name):
    """The command that runs a program of crates.txt, once `rt ci`, or `rt run` in its folder, has made it."""
    file = CRATES / name / "out" / name
    if not file.is_file():
        sys.exit(f"no {name} program in crates/{name}/out: `rt run </dev/null` in crates/{name} makes it")
    return [*x86("on_kit"), str(file)]
