"""What docs/STACK.md states: its tables of bytes by the names of functions, and the bound that it reasons from them."""
import itertools
import pathlib

PAGE = pathlib.Path(__file__).resolve().parents[2] / "docs/STACK.md"
LEVELS = "| Function | Calls | A level, bytes |"
AFTER = "| Function | After the judgement, bytes |"
WAYS = "| Way down | Functions | Bytes | Units | Words |"
DESK_BUDGET = 384


def number(cell):
    return int(cell.replace(",", ""))


def table(head, page):
    """The rows of the one table with this head, as their cells."""
    if page.count(head + "\n") != 1:
        raise ValueError(f"not one table {head}")
    lines = page.partition(head + "\n")[2].splitlines()[1:]
    return [[cell.strip().replace("`", "") for cell in line.strip("|").split("|")] for line in itertools.takewhile(lambda line: line.startswith("|"), lines)]


def by_names(rows):
    """The bytes in the last column by the names in the others; a name has one row."""
    found = {tuple(names): number(bytes) for *names, bytes in rows}
    if len(found) != len(rows):
        raise ValueError("a name has two rows")
    return found


def levels(page):
    """The bytes between a call of a function and one that it makes in its own ring."""
    return {(caller, callee): bytes for (caller, callee), bytes in by_names(table(LEVELS, page)).items()}


def after_judgement(page):
    return {function: bytes for (function,), bytes in by_names(table(AFTER, page)).items()}


class Bound:
    """The most bytes of stack that a call takes, as the page's section of that name has it."""

    once = 4 << 10
    arrays = 4 * (2048 + 16384 + 4096)

    def __init__(self, page):
        self.ways = [(way, functions.split(), *map(number, numbers)) for way, functions, *numbers in table(WAYS, page)]
        self.level = {(caller.rpartition("::")[2], callee.rpartition("::")[2]): bytes for (caller, callee), bytes in levels(page).items()}
        read, infer, apply = (self.level[name, name] for name in ("read_expr", "infer", "apply_ctx_type"))
        ann = self.along(["infer", "check", "infer"])
        self.read = read
        # bytes for a unit and for a word
        self.prices = [(infer, 0), (ann - infer, infer - ann // 2), (apply, ann // 2 - apply)]

    def along(self, functions):
        return sum(self.level[pair] for pair in itertools.pairwise(functions))

    def paid(self, way):
        """Whether a way down takes as many bytes as the page says, and no more than any of the prices gives for its units and words."""
        _, functions, bytes, units, words = way
        return bytes == self.along(functions) and all(bytes <= unit * units + word * words for unit, word in self.prices)

    def judged(self, words, budget):
        """Of a judgement; a question has six words that are no part of it."""
        return min(unit * budget + word * (words - 6) for unit, word in self.prices)

    def check(self, words, budget):
        """Of sporeflask_check, with a question of so many words, which is read from its fifth on."""
        return max(self.read * (words - 4), self.judged(words, budget)) + self.once

    def answer(self, words):
        return self.check(words, DESK_BUDGET) + self.arrays
