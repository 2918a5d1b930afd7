#!/usr/bin/env python3
"""The words of theatres' formulas, one line each: name | verdict | budget work room | words.

usage: compile.py [--strict] FORMULAS          the verdict is what the file claims: 'claimed accepted' or 'claimed refused'
       compile.py --ask [--strict] FORMULAS    the verdict is the checker's: 'accepted', or 'refused' and the code, by the desk
                                               program (after `rt ci`); exit status 1 where one is not as claimed
                                               ('claimed refused' is: refused with a type error, 11 to 17)
With --strict the questions are in strict mode.

Names are numbered from 1 by first appearance in each formula, variables and type names apart. A number is at most
9,223,372,036,854,775,807, the greatest i64; a greater one is a mistake in the file (exit status 1, as every other), and so are
two inputs of one name in a house.
"""
import pathlib
import re
import sys

sys.path.insert(0, str(pathlib.Path(__file__).resolve().parent.parent))
from shared.desk import SIZES, ask  # noqa: E402
from shared.programs import program  # noqa: E402
from shared.script import refuse, text  # noqa: E402

USAGE = "compile.py [--ask] [--strict] FORMULAS"
TOKEN = re.compile(r"\s*(/\\|->|==|!=|<=|>=|&&|\|\||[A-Za-z_]\w*|\d+|[\\.:=()\[\]<>+*/-])")
OPERATORS = {op: number + 1 for number, op in enumerate("+ - * / && || == != < <= > >=".split())}
LEVELS = [["||"], ["&&"], ["==", "!=", "<", "<=", ">", ">="], ["+", "-"], ["*", "/"]]
KEYWORDS = {"let", "in", "if", "then", "else", "true", "false", "forall"}
MOST_NUMBER = 2**63 - 1


class Mistake(Exception):
    """What is wrong in a line of the file."""


class Words:
    """A formula's text on its way to words."""

    def __init__(self):
        self.variables, self.types = {}, {}
        self.tokens = []

    def open(self, text):
        found = TOKEN.findall(text)
        if "".join(found) != "".join(text.split()):
            raise Mistake(f"not a formula: {text.strip()}")
        self.tokens = found[::-1]

    def done(self):
        if self.tokens:
            raise Mistake(f"words too many, from: {self.tokens[-1]}")

    def peek(self):
        return self.tokens[-1] if self.tokens else ""

    def take(self, wanted=None):
        token = self.tokens.pop() if self.tokens else ""
        if wanted is not None and token != wanted:
            raise Mistake(f"wanted {wanted}, found {token or 'the end'}")
        return token

    @staticmethod
    def number(names, name):
        return names.setdefault(name, len(names) + 1)

    def name(self, names):
        token = self.take()
        if not re.match(r"[A-Za-z_]", token) or token in KEYWORDS:
            raise Mistake(f"wanted a name, found {token or 'the end'}")
        return self.number(names, token)

    def type(self):
        if self.peek() == "forall":
            self.take()
            bound = self.name(self.types)
            self.take(".")
            return [6, bound] + self.type()
        left = self.small_type()
        if self.peek() == "->":
            self.take()
            return [5] + left + self.type()
        return left

    def small_type(self):
        if self.peek() == "(":
            self.take()
            inner = self.type()
            self.take(")")
            return inner
        if self.peek() in ("Int", "Bool"):
            return [1 if self.take() == "Int" else 2]
        return [3, self.name(self.types)]

    def expr(self):
        token = self.peek()
        if token == "\\":
            return self.abstraction()
        if token == "/\\":
            self.take()
            bound = self.name(self.types)
            self.take(".")
            return [20, bound] + self.expr()
        if token == "let":
            return self.let()
        if token == "if":
            return self.branches()
        return self.operation(0)

    def abstraction(self):
        self.take("\\")
        bound = self.name(self.variables)
        self.take(":")
        held = self.type()
        self.take(".")
        return [18, bound] + held + self.expr()

    def let(self):
        self.take("let")
        bound = self.name(self.variables)
        self.take("=")
        value = self.expr()
        self.take("in")
        return [24, bound] + value + self.expr()

    def branches(self):
        self.take("if")
        test = self.expr()
        self.take("then")
        yes = self.expr()
        self.take("else")
        return [25] + test + yes + self.expr()

    def operation(self, level):
        if level == len(LEVELS):
            return self.application()
        left = self.operation(level + 1)
        while self.peek() in LEVELS[level]:
            op = OPERATORS[self.take()]
            left = [26, op] + left + self.operation(level + 1)
        return left

    def application(self):
        function = self.small()
        while True:
            if self.peek() == "[":
                self.take()
                function = [19] + function + self.type()
                self.take("]")
            elif self.peek() == "(" or re.match(r"\w", self.peek()) and self.peek() not in KEYWORDS - {"true", "false"}:
                function = [17] + function + self.small()
            else:
                return function

    def small(self):
        token = self.peek()
        if token == "(":
            return self.parenthesis()
        if token.isdigit():
            return self.literal()
        if token in ("true", "false"):
            return [23, int(self.take() == "true")]
        return [16, self.name(self.variables)]

    def literal(self):
        digits = self.take().lstrip("0") or "0"
        # by its length first: int() takes no more than some thousand digits
        if len(digits) > len(str(MOST_NUMBER)) or int(digits) > MOST_NUMBER:
            raise Mistake(f"a number past {MOST_NUMBER}, the greatest i64: {digits}")
        return [22, int(digits) & 0xFFFFFFFF, int(digits) >> 32]

    def parenthesis(self):
        self.take("(")
        inner = self.expr()
        if self.peek() == ":":
            self.take()
            inner = [21] + inner + self.type()
        self.take(")")
        return inner


def question(inputs, wanted, text):
    """Kind 1 or 2 with the house's inputs, or 7 where there are none and no type is wanted."""
    words = Words()
    context = []
    for name, held in inputs:
        words.open(held)
        context += [32, words.number(words.variables, name)] + words.type()
        words.done()
    right = []
    if wanted:
        words.open(wanted)
        right = words.type()
        words.done()
    words.open(text)
    expr = words.expr()
    words.done()
    kind = 2 if wanted else 1 if inputs else 7
    out = [kind, 0]
    for section in (context, expr, [], right):
        out += [len(section)] + section
    return out


class House:
    """The lines of a file so far: the house that is open, and its inputs."""

    def __init__(self):
        self.name, self.inputs = "", []

    def line(self, text):
        """A formula's name, whether it is claimed to be accepted, and its words; nothing for other lines."""
        head, _, rest = text.strip().partition(" ")
        if head == "house":
            self.name, self.inputs = rest, []
        elif head == "input":
            name, _, held = rest.partition(":")
            if name.strip() in dict(self.inputs):
                raise Mistake(f"two inputs of one name: {name.strip()}")
            self.inputs.append((name.strip(), held))
        elif head in ("formula", "refused"):
            name, _, text = rest.partition(" = ")
            name, _, wanted = name.partition(":")
            yield f"{self.name}.{name.strip()}", head == "formula", question(self.inputs, wanted, text)
        elif head and not head.startswith("#"):
            raise Mistake(f"not a line: {text.strip()}")


def formulas(file):
    house = House()
    for number, line in enumerate(text(pathlib.Path(file), USAGE).splitlines(), 1):
        try:
            yield from house.line(line)
        except Mistake as mistake:
            sys.exit(f"{file}:{number}: {mistake}")


def asked(accepted, words):
    """The checker's verdict, and whether it is the one claimed: a refusal must be a type error, not a question that cannot be run."""
    code = int(ask(words).split()[0])
    return ("accepted" if code == 0 else f"refused {code}"), (code == 0 if accepted else 11 <= code <= 17)


def main():
    options, files = ([word for word in sys.argv[1:] if word.startswith("-") == dashed] for dashed in (True, False))
    asks, strict = "--ask" in options, "--strict" in options
    if set(options) - {"--ask", "--strict"} or len(files) != 1 or not pathlib.Path(files[0]).is_file():
        refuse(USAGE)
    if asks:
        program("desk")
    faults = 0
    found = list(formulas(files[0]))
    if not found:
        refuse(USAGE, "no formula")
    for name, accepted, words in found:
        claimed = "accepted" if accepted else "refused"
        words[1] = int(strict)
        verdict, held = asked(accepted, words) if asks else (f"claimed {claimed}", True)
        print(f"{name} | {verdict} | {SIZES} | {' '.join(map(str, words))}")
        if not held:
            faults += 1
            how = "" if accepted else " by a type error (11 to 17)"
            print(f"{name}: claimed {claimed}{how}, but the checker's verdict is: {verdict}", file=sys.stderr)
    sys.exit(1 if faults else 0)


main()
