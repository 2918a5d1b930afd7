"""The desk program as a function, after `rt ci`: a question's words in, its two lines out; or the parts program's seven."""
import concurrent.futures
import os
import struct
import subprocess

from shared.programs import program

# budget, work and room of the desk program
SIZES = "384 16384 4096"


def ask(words, name="desk"):
    """What the desk program says to a question, or the parts program."""
    packed = struct.pack(f"<{len(words)}I", *words)
    return subprocess.run(program(name), input=packed, stdout=subprocess.PIPE, check=True).stdout.decode()


def ask_all(lines, name="desk"):
    """What the program says to the questions of recorded answers, as many at a time as there are processors."""
    program(name)
    with concurrent.futures.ThreadPoolExecutor(os.cpu_count()) as pool:
        return list(pool.map(lambda line: ask([int(word) for word in line.question.split()], name), lines))


def same_at_the_desk(line):
    """Whether the desk's sizes give the same reply as those of the recorded answer."""
    code, _, length, units = map(int, line.numbers.split())
    budget, _, room = map(int, SIZES.split())
    if line.sizes == SIZES or code in (3, 4, 5):
        return True
    if code == 6:
        return int(line.sizes.split()[0]) == budget
    return (code == 0 or code >= 11) and units <= budget and length <= room
