"""Document 01's words in formula notation: questions, replies, the paper's outcomes."""
from paper import PARTS, parts as read, section

OPERATORS = [None, "+", "-", "*", "/", "&&", "||", "==", "!=", "<", "<=", ">", ">="]
FORMS = {16: "{0}", 17: "{0} {1}", 18: "λ{0}:{1}. {2}", 19: "{0}[{1}]", 20: "Λ{0}. {1}", 21: "({0} : {1})", 24: "let {0} = {1} in {2}",
         25: "if {0} then {1} else {2}", 26: "{1} {operator} {2}"}
# no question draws 16: never_16, docs/THEOREMS.md
CODES = {1: "BadBudget", 2: "ShortWork", 3: "BadLength", 4: "BadShape", 5: "ReservedName", 6: "Budget", 7: "NoRoom",
         11: "UnboundVariable", 12: "ApplicationTypeError", 13: "TypeApplicationError", 14: "OccursCheck", 15: "SubtypingError",
         17: "ParameterMismatch"}
# document 01's names, for variables and for types
NAMES = {1: "A", 2: "B", 5: "x", 6: "y"}
TABS = 20
VARBND = 32


def spelt(names, number):
    return f"α{number - 1_000_000}" if number >= 1_000_000 else names.get(number, f"n{number}")


class Notation:
    """How words are written, with these spellings of variables and of type names."""

    def __init__(self, variables=None, types=None):
        self.variables, self.types = NAMES if variables is None else variables, NAMES if types is None else types

    def variable(self, number):
        return spelt(self.variables, number)

    def type_name(self, number):
        return spelt(self.types, number)

    def ty(self, A, inner=False):
        code, *parts = A
        if code <= 4:
            return ["Int", "Bool", *(hat + self.type_name(part) for hat in ("", "^") for part in parts)][code - 1]
        text = (f"{self.ty(parts[0], True)} → {self.ty(parts[1])}" if code == 5
                else f"∀{self.type_name(parts[0])}. {self.ty(parts[1])}")
        return f"({text})" if inner else text

    def entry(self, item):
        code, a, *held = item
        sign = {34: "^", 35: "^", 36: "$"}.get(code, "")
        named = self.variable(a) if code == VARBND else self.type_name(a)
        return sign + named + "".join({32: " : ", 35: " = "}[code] + self.ty(A) for A in held)

    def context(self, G):
        return ", ".join(map(self.entry, G)) or "·"

    def expr(self, e, inner=False):
        code, *parts = e
        if code == 22:
            return str(parts[0] + (parts[1] << 32))
        if code == 23:
            return ["false", "true"][parts[0]]
        inside = {"n": self.type_name if code == TABS else self.variable, "t": lambda A: self.ty(A, code == 18),
                  "e": lambda part: self.expr(part, code in (17, 19, 26))}
        texts = [inside[kind](part) for kind, part in zip(PARTS[code], parts)]
        text = FORMS[code].format(*texts, operator=OPERATORS[parts[0]] if code == 26 else "")
        return f"({text})" if inner and code not in (16, 21) else text

    def question(self, words):
        kind, mode, G, e, A, B = read(words)
        expr, ty = self.expr, self.ty
        judgement = {1: lambda: f"{expr(*e)} ⇒", 2: lambda: f"{expr(*e)} ⇐ {ty(*B)}",
                     3: lambda: f"{expr(*e)} • {ty(*A, True)} ⇒⇒", 4: lambda: f"{ty(*A)} <: {ty(*B)}",
                     7: lambda: expr(*e)}.get(kind, lambda: f"{ty(*A)} :=< {ty(*B)}")()
        return (f"{self.context(G)} ⊢ " if kind != 7 else "") + judgement + ", strict" * mode

    def accepted(self, A, G):
        return "accepted" + "".join(f", type {self.ty(C)}" for C in A) + f", context {self.context(G)}"

    def reply(self, numbers, report):
        code, at, *_ = numbers
        rest = iter(report)
        if code == 0:
            return self.accepted(section(rest), section(rest))
        named = {11: f" {self.variable(at)}", 14: f" {self.type_name(at)}"}.get(code, "")
        types = [self.ty(A) for _ in range(2) for A in section(rest)] if code >= 11 else []
        return f"refused, {CODES[code]}{named}" + ("" if not types else ": " + ", ".join(types))

    def outcome(self, derived):
        if isinstance(derived, str):
            return derived
        return " or ".join(self.accepted((A,) if A else (), G) for A, G in derived) or "refused"
