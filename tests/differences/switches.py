#!/usr/bin/env python3
"""That part P of docs/DIFFERENCES.md is complete: the paper's rules with a switch for each entry.

usage: switches.py ANSWERS..    files of recorded answers, as tests/recorded/answers.txt

With all switches set the checker below must give the recorded outcome of every plain question that has the paper's expressions alone,
with none set an outcome of paper.py (in 000's order of rules, P21). And each entry's own questions must show its switch: with all the
others set, one of them comes out otherwise. P5, P10, P15 and P21 to P28 have no switch: they are no choice of a rule. The last line is
'N passed, M failed': recorded outcomes that are as told, and entries that are shown.
"""
import pathlib
import sys

sys.path.insert(0, str(pathlib.Path(__file__).resolve().parent.parent))
import paper  # noqa: E402
from run import entries  # noqa: E402
from shared.recorded import given  # noqa: E402
from shared.script import verdict  # noqa: E402
from paper import (  # noqa: E402
    ARROW, BOOL, E_ABS, E_ANN, E_APP, E_BOOL, E_INT, E_VAR, ETVAR, ETVARBND, FORALL, INT, MARK, SETVARBND, TVARBND, VAR,
                   VARBND, at, put, section)

SWITCHES = {"P1", "P2", "P3", "P4", "P6", "P7", "P8", "P9", "P11", "P12", "P13", "P14", "P16", "P17", "P18", "P19", "P20"}
# applications after which a run counts as endless
MOST_STEPS = 3_000
# words past which a question is passed over: Python's stack is small
MOST_WORDS = 200


class Refused(Exception):
    pass


class Endless(Exception):
    pass


def last(G, kind, name):
    return next((i for i in reversed(range(len(G))) if G[i][:2] == (kind, name)), None)


class Checker:
    def __init__(self, switches):
        self.switches, self.names, self.steps = switches, 999_999, 0

    def on(self, entry):
        return entry in self.switches

    # ---- Names, types and contexts

    def fresh(self, G, taken=0):
        """000 counts; with no switch set the names are paper.py's, of which as many are taken."""
        self.names += 1
        return self.names if self.switches else paper.fresh(G) + taken

    def free(self, a, A):
        """Whether the unknown a is free in A."""
        if not self.on("P3"):
            return (ETVAR, a) in paper.free(A)
        if A[0] in (VAR, ETVAR):
            return A[1] == a
        if A[0] == FORALL:
            return A[1] != a and self.free(a, A[2])
        return A[0] == ARROW and (self.free(a, A[1]) or self.free(a, A[2]))

    def apply(self, G, A):
        self.steps += 1
        if self.steps > MOST_STEPS:
            raise Endless
        if not self.on("P4"):
            return paper.apply(G, A)
        if A[0] == ETVAR:
            i = at(G, SETVARBND, A[1])
            return A if i is None else self.apply(G, G[i][2])
        return tuple(self.apply(G, part) if isinstance(part, tuple) else part for part in A)

    def universal(self, G, a, A):
        return (a, A) if self.on("P2") else paper.universal(G, a, A)

    def unknown(self, G, a, A):
        return (a, paper.subst(A, (VAR, a), (ETVAR, a))) if self.on("P2") else paper.unknown(G, a, A)

    def marked(self, G, b):
        return (*G, (ETVARBND, b), (MARK, b)) if self.on("P16") else (*G, (MARK, b), (ETVARBND, b))

    def without(self, D, kind, name, keeps_solved=False):
        """The output context of a rule that pushed this entry."""
        i = at(D, kind, name) if kind != VARBND or self.on("P9") else last(D, kind, name)
        if not self.on("P8" if keeps_solved else "P7"):
            return D[:i]
        left, right = (D, ()) if i is None else (D[:i], D[i + 1:])
        return tuple(entry for entry in left if keeps_solved and entry[0] == SETVARBND) + right

    def solved(self, G, a, *entries):
        """G with these entries in the place of the unsolved a."""
        i = at(G, ETVARBND, a)
        if i is None and not self.on("P14"):
            raise Refused
        return (*G, *entries) if i is None else put(G, i, *entries)

    def split(self, G, a):
        a1, a2 = self.fresh(G), self.fresh(G, 1)
        entries = [(SETVARBND, a, (ARROW, (ETVAR, a1), (ETVAR, a2))), (ETVARBND, a1), (ETVARBND, a2)]
        return a1, a2, self.solved(G, a, *(entries if self.on("P13") else reversed(entries)))

    # ---- The judgements

    def inst(self, left, G, a, A):
        i, j = at(G, ETVARBND, a), at(G, ETVARBND, A[1]) if A[0] == ETVAR else None
        if None not in (i, j) and (i > j if self.on("P12") else i < j):
            return put(G, j, (SETVARBND, A[1], (ETVAR, a)))
        if A[0] == ARROW:
            a1, a2, H = self.split(G, a)
            T = self.inst(not left, H, a1, A[1])
            return self.inst(left, T, a2, self.apply(T, A[2]))
        if A[0] == FORALL and left:
            b, B = self.universal(G, *A[1:])
            return self.without(self.inst(left, (*G, (TVARBND, b)), a, B), TVARBND, b)
        if A[0] == FORALL:
            b, B = self.unknown(G, *A[1:])
            return self.without(self.inst(left, self.marked(G, b), a, B), MARK, b)
        if self.free(a, A) if self.on("P11") else not paper.well_formed(G[:i], A):
            raise Refused
        return self.solved(G, a, (SETVARBND, a, A))

    def alike(self, G, A, B):
        declared = A in paper.declared(G) if A[0] == VAR else A[0] != ETVAR or at(G, ETVARBND, A[1]) is not None
        return A == B and A[0] in (INT, BOOL, VAR, ETVAR) and (declared or self.on("P6"))

    def subtype(self, G, A, B):
        if self.alike(G, A, B):
            return G
        if A[0] == ARROW and B[0] == ARROW:
            T = self.subtype(G, B[1], A[1])
            return self.subtype(T, *((C if self.on("P17") else self.apply(T, C)) for C in (A[2], B[2])))
        if B[0] == FORALL:
            b, C = self.universal(G, *B[1:])
            return self.without(self.subtype((*G, (TVARBND, b)), A, C), TVARBND, b)
        if A[0] == FORALL:
            a, C = self.unknown(G, *A[1:])
            return self.without(self.subtype(self.marked(G, a), C, B), MARK, a)
        if A[0] == ETVAR and not self.free(A[1], B):
            return self.inst(True, G, A[1], B)
        if B[0] == ETVAR and not self.free(B[1], A):
            return self.inst(False, G, B[1], A)
        raise Refused

    def check(self, G, e, B):
        if (e[0], B[0]) in ((E_INT, INT), (E_BOOL, BOOL)):
            return G
        if e[0] == E_ABS and B[0] == ARROW:
            return self.without(self.check((*G, (VARBND, e[1], B[1])), e[3], B[2]), VARBND, e[1])
        if B[0] == FORALL:
            b, C = self.universal(G, *B[1:])
            return self.without(self.check((*G, (TVARBND, b)), e, C), TVARBND, b)
        A, T = self.infer(G, e)
        return self.subtype(T, self.apply(T, A), self.apply(T, B))

    def function(self, G, x, A, e):
        A = A if self.on("P20") else (ETVAR, self.fresh(G))
        b = self.fresh(G, 1)
        unknowns = [*([] if self.on("P20") else [(ETVARBND, A[1])]), (ETVARBND, b)]
        H = (*G, (VARBND, x, A), *unknowns) if self.on("P19") else (*G, *unknowns, (VARBND, x, A))
        return (ARROW, A, (ETVAR, b)), self.without(self.check(H, e, (ETVAR, b)), VARBND, x, True)

    def infer(self, G, e):
        if e[0] == E_VAR:
            i = at(G, VARBND, e[1]) if self.on("P1") else last(G, VARBND, e[1])
            if i is not None:
                return G[i][2], G
        if e[0] in (E_INT, E_BOOL):
            return (e[0] - E_INT + INT,), G
        if e[0] == E_ANN and (self.on("P6") or paper.well_formed(G, e[2])):
            return e[2], self.check(G, e[1], e[2])
        if e[0] == E_ABS:
            return self.function(G, *e[1:])
        if e[0] == E_APP:
            A, T = self.infer(G, e[1])
            return self.infer_app(T, e[2], self.apply(T, A))
        raise Refused

    def infer_app(self, G, e, A):
        if A[0] == ARROW:
            return A[2], self.check(G, e, A[1])
        if A[0] == ETVAR:
            a1, a2, H = self.split(G, A[1])
            return (ETVAR, a2), self.check(H, e, (ETVAR, a1))
        if A[0] == FORALL and not self.on("P18"):
            a, B = paper.unknown(G, *A[1:])
            return self.infer_app((*G, (ETVARBND, a)), e, B)
        raise Refused


# ---- What is held to what

def outcome(switches, words):
    """A type (or None) and an output context, "refused" or "endless"."""
    kind, _, G, e, A, B = paper.parts(words)
    run = Checker(switches)
    try:
        if kind in (1, 3, 7):
            C, D = run.infer_app(G, *e, *A) if kind == 3 else run.infer(G, *e)
            return (run.apply(D, C) if kind == 7 else C), D
        return None, {2: lambda: run.check(G, *e, *B), 4: lambda: run.subtype(G, *A, *B), 5: lambda: run.inst(True, G, A[0][1], *B),
                      6: lambda: run.inst(False, G, B[0][1], *A)}[kind]()
    except Refused:
        return "refused"
    except (Endless, RecursionError):
        return "endless"


def told(line):
    """The outcome that a recorded answer tells, or None where it tells none or the paper lacks its expressions."""
    code = int(line.numbers.split()[0])
    if 1 <= code <= 7 or len(line.question.split()) > MOST_WORDS:
        return None
    _, mode, _, e, _, _ = paper.parts(map(int, line.question.split()))
    if mode == 1 or not paper.has_rules(e):
        return None
    rest = iter([int(word) for word in line.report.split()])
    return ((*section(rest), None)[0], section(rest)) if code == 0 else "refused"


def renumbered(thing, names):
    """An outcome with its fresh names counted as they occur, since which ones the paper takes means nothing."""
    if isinstance(thing, tuple):
        return tuple(renumbered(part, names) for part in thing)
    return names.setdefault(thing, -len(names)) if isinstance(thing, int) and thing >= 1_000_000 else thing


def faults_of(line):
    words = [int(word) for word in line.question.split()]
    if outcome(SWITCHES, words) != told(line):
        yield f"all switches set: {line.question}"
    derived = paper.derived(words)
    if isinstance(derived, str):
        return
    if renumbered(outcome(set(), words), {}) not in [renumbered(each, {}) for each in derived or ["refused"]]:
        yield f"no switch set: {line.question}"


def hidden(name, lines):
    """Whether none of an entry's questions shows its switch."""
    words = [[int(word) for word in line.question.split()] for line in lines]
    return all(outcome(SWITCHES - {name}, question) == outcome(SWITCHES, question) for question in words)


def main():
    lines, listed = list(filter(told, given("switches.py ANSWERS.."))), dict(entries())
    if not lines:
        print("switches: no answer of ANSWERS.. tells an outcome of the paper's expressions")
        verdict(0, 0)
    lines += [line for own in listed.values() for line in own if told(line)]
    found = [*(list(faults_of(line)) for line in lines),
             *([f"{name}: no question shows it"] if hidden(name, listed.get(name, [])) else [] for name in sorted(SWITCHES))]
    faults = [fault for each in found for fault in each]
    print(*faults, sep="\n", end="\n" if faults else "")
    print(f"switches: {len(SWITCHES)} entries, {len(lines)} recorded outcomes, {len(faults)} faults")
    failed = sum(1 for each in found if each)
    verdict(len(found) - failed, failed)


if __name__ == "__main__":
    main()
