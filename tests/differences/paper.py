"""The rules of Dunfield and Krishnaswami's paper (Figures 7 to 11) on document 01's questions: every outcome that they derive.

Each rule stands under its name, so that a reader can hold it to the paper. Int and Bool are two copies of the paper's 1, a literal is
its (), and the type written on a parameter is passed over; let, if, operators, type abstraction and type application have no rule.
A judgement is a generator: the paper's rules overlap, and every derivation counts. Contexts are tuples, oldest entry first.
"""

INT, BOOL, VAR, ETVAR, ARROW, FORALL = range(1, 7)
E_VAR, E_APP, E_ABS, E_TAPP, E_TABS, E_ANN, E_INT, E_BOOL = range(16, 24)
VARBND, TVARBND, ETVARBND, SETVARBND, MARK = range(32, 37)

# what follows a code in a question: n a name or a plain word, t a type, e an expression
PARTS = {INT: "", BOOL: "", VAR: "n", ETVAR: "n", ARROW: "tt", FORALL: "nt", E_VAR: "n", E_APP: "ee", E_ABS: "nte", E_TAPP: "et",
         E_TABS: "ne", E_ANN: "et", E_INT: "nn", E_BOOL: "n", 24: "nee", 25: "eee", 26: "nee", VARBND: "nt", TVARBND: "n",
         ETVARBND: "n", SETVARBND: "nt", MARK: "n"}


# ---- Reading

def item(words):
    code = next(words)
    return (code, *(next(words) if part == "n" else item(words) for part in PARTS[code]))


def section(words):
    inside, items = iter([next(words) for _ in range(next(words))]), []
    while True:
        try:
            items.append(item(inside))
        except StopIteration:
            return tuple(items)


def parts(question):
    """Kind, mode, and the items of the four sections."""
    words = iter(question)
    return (next(words), next(words), *[section(words) for _ in range(4)])


# ---- Names, substitution, free variables; a bound name that is taken is changed, as the paper's contexts declare a name once

def numbers(thing):
    return {thing} if isinstance(thing, int) else set().union(*map(numbers, thing))


def fresh(*things):
    """A name above every number in these."""
    return max({999_999} | numbers(things)) + 1


def subst(A, a, R):
    """[R/a]A, where a is a Var or an ETVar; no binder of A takes a name of R."""
    if A == a:
        return R
    if A[0] == ARROW:
        return (ARROW, subst(A[1], a, R), subst(A[2], a, R))
    if A[0] != FORALL or A[1:2] == a[1:] and a[0] == VAR:
        return A
    b = fresh(A, a, R) if (VAR, A[1]) in free(R) else A[1]
    return (FORALL, b, subst(subst(A[2], (VAR, A[1]), (VAR, b)), a, R))


def free(A):
    if A[0] in (VAR, ETVAR):
        return {A}
    if A[0] == ARROW:
        return free(A[1]) | free(A[2])
    return free(A[2]) - {(VAR, A[1])} if A[0] == FORALL else set()


def renamed(e, x, y):
    """e with its free variable x called y."""
    if e[:2] == (E_VAR, x):
        return (E_VAR, y)
    if isinstance(e, int) or e[0] < E_VAR or e[:2] in ((E_ABS, x), (E_INT, x), (E_BOOL, x)):
        return e
    return (e[0], *(part if isinstance(part, int) else renamed(part, x, y) for part in e[1:]))


def mono(A):
    return A[0] != FORALL and (A[0] != ARROW or mono(A[1]) and mono(A[2]))


# ---- Contexts: Figure 7 (well-formedness) and Figure 8 (application)

def declared(G):
    kinds = {TVARBND: VAR, ETVARBND: ETVAR, SETVARBND: ETVAR}
    return {(kinds[entry[0]], entry[1]) for entry in G if entry[0] in kinds}


def well_formed(G, A):
    return free(A) <= declared(G)


# entries that must not stand left of one of this kind with its name
CLASHES = {VARBND: (VARBND,), TVARBND: (TVARBND,), ETVARBND: (ETVARBND, SETVARBND), SETVARBND: (ETVARBND, SETVARBND),
           MARK: (ETVARBND, SETVARBND, MARK)}


def is_context(G):
    for i, (kind, name, *held) in enumerate(G):
        if any(entry[1] == name and entry[0] in CLASHES[kind] for entry in G[:i]) or not all(well_formed(G[:i], A) for A in held):
            return False
        if kind == SETVARBND and not mono(held[0]):
            return False
    return True


def apply(G, A):
    for kind, name, *held in reversed(G):
        if kind == SETVARBND:
            A = subst(A, (ETVAR, name), held[0])
    return A


def at(G, kind, name):
    return next((i for i, entry in enumerate(G) if entry[:2] == (kind, name)), None)


def put(G, i, *entries):
    return (*G[:i], *entries, *G[i + 1:])


def universal(G, a, A):
    """A's bound variable a as one that G does not declare."""
    b = fresh(G, A) if (VAR, a) in declared(G) else a
    return b, subst(A, (VAR, a), (VAR, b))


def unknown(G, a, A):
    """A with an unknown that G does not declare in the place of its bound variable a."""
    taken = (ETVAR, a) in declared(G) or (MARK, a) in G
    b = fresh(G, A) if taken else a
    return b, subst(A, (VAR, a), (ETVAR, b))


def split(G, i):
    """G[^a2, ^a1, ^a = ^a1 -> ^a2]"""
    a1 = fresh(G)
    a2 = a1 + 1
    return a1, a2, put(G, i, (ETVARBND, a2), (ETVARBND, a1), (SETVARBND, G[i][1], (ARROW, (ETVAR, a1), (ETVAR, a2))))


# ---- Figure 10: instantiation; left is True for ^a :=< A, False for A :=< ^a

def inst(left, G, a, A):
    i = at(G, ETVARBND, a)
    if i is None:
        return
    if mono(A) and well_formed(G[:i], A):  # InstLSolve, InstRSolve
        yield put(G, i, (SETVARBND, a, A))
    if A[0] == ETVAR:  # InstLReach, InstRReach
        j = at(G, ETVARBND, A[1])
        if j is not None and i < j:
            yield put(G, j, (SETVARBND, A[1], (ETVAR, a)))
    if A[0] == ARROW:  # InstLArr, InstRArr
        a1, a2, H = split(G, i)
        for T in inst(not left, H, a1, A[1]):
            yield from inst(left, T, a2, apply(T, A[2]))
    if A[0] == FORALL and left:  # InstLAllR
        b, B = universal(G, *A[1:])
        for D in inst(left, (*G, (TVARBND, b)), a, B):
            yield D[:at(D, TVARBND, b)]
    if A[0] == FORALL and not left:  # InstRAllL
        b, B = unknown(G, *A[1:])
        for D in inst(left, (*G, (MARK, b), (ETVARBND, b)), a, B):
            yield D[:at(D, MARK, b)]


# ---- Figure 9: subtyping

def subtype(G, A, B):
    if A == B and (A[0] in (INT, BOOL) or A[0] == VAR and A in declared(G)):  # <:Unit, <:Var
        yield G
    if A == B and A[0] == ETVAR and at(G, ETVARBND, A[1]) is not None:  # <:Exvar
        yield G
    if A[0] == ARROW and B[0] == ARROW:  # <:→
        for T in subtype(G, B[1], A[1]):
            yield from subtype(T, apply(T, A[2]), apply(T, B[2]))
    if A[0] == FORALL:  # <:∀L
        a, C = unknown(G, *A[1:])
        for D in subtype((*G, (MARK, a), (ETVARBND, a)), C, B):
            yield D[:at(D, MARK, a)]
    if B[0] == FORALL:  # <:∀R
        b, C = universal(G, *B[1:])
        for D in subtype((*G, (TVARBND, b)), A, C):
            yield D[:at(D, TVARBND, b)]
    if A[0] == ETVAR and A not in free(B):  # <:InstantiateL
        yield from inst(True, G, A[1], B)
    if B[0] == ETVAR and B not in free(A):  # <:InstantiateR
        yield from inst(False, G, B[1], A)


# ---- Figure 11: typing

def under(G, x, A, e, *more):
    """The premise of a λ: x as a variable that G does not declare, its body, and the context with it (and more to its left)."""
    y = x if at(G, VARBND, x) is None else fresh(G, e)
    return y, renamed(e, x, y), (*G, *more, (VARBND, y, A))


def check(G, e, B):
    if (e[0], B[0]) in ((E_INT, INT), (E_BOOL, BOOL)):  # 1I
        yield G
    if e[0] == E_ABS and B[0] == ARROW:  # →I
        y, body, H = under(G, e[1], B[1], e[3])
        for D in check(H, body, B[2]):
            yield D[:at(D, VARBND, y)]
    if B[0] == FORALL:  # ∀I
        b, C = universal(G, *B[1:])
        for D in check((*G, (TVARBND, b)), e, C):
            yield D[:at(D, TVARBND, b)]
    for A, T in infer(G, e):  # Sub
        yield from subtype(T, apply(T, A), apply(T, B))


def infer(G, e):
    if e[0] == E_VAR and at(G, VARBND, e[1]) is not None:  # Var
        yield G[at(G, VARBND, e[1])][2], G
    if e[0] in (E_INT, E_BOOL):  # 1I⇒
        yield (e[0] - E_INT + INT,), G
    if e[0] == E_ANN and well_formed(G, e[2]):  # Anno
        for D in check(G, e[1], e[2]):
            yield e[2], D
    if e[0] == E_ABS:  # →I⇒
        a = fresh(G)
        y, body, H = under(G, e[1], (ETVAR, a), e[3], (ETVARBND, a), (ETVARBND, a + 1))
        for D in check(H, body, (ETVAR, a + 1)):
            yield (ARROW, (ETVAR, a), (ETVAR, a + 1)), D[:at(D, VARBND, y)]
    if e[0] == E_APP:  # →E
        for A, T in infer(G, e[1]):
            yield from infer_app(T, e[2], apply(T, A))


def infer_app(G, e, A):
    if A[0] == FORALL:  # ∀App
        a, B = unknown(G, *A[1:])
        yield from infer_app((*G, (ETVARBND, a)), e, B)
    if A[0] == ETVAR and at(G, ETVARBND, A[1]) is not None:  # α̂App
        a1, a2, H = split(G, at(G, ETVARBND, A[1]))
        for D in check(H, e, (ETVAR, a1)):
            yield (ETVAR, a2), D
    if A[0] == ARROW:  # →App
        for D in check(G, e, A[1]):
            yield A[2], D


# ---- A question's outcomes

def outcomes(kind, G, e, A, B):
    """Pairs of a type (or None) and an output context; kind 7's type is applied, as one would do after Figure 11."""
    if kind == 1:
        yield from infer(G, *e)
    elif kind == 3:
        yield from infer_app(G, *e, *A)
    elif kind == 7:
        yield from ((apply(D, C), D) for C, D in infer((), *e))
    else:
        judged = {2: lambda: check(G, *e, *B), 4: lambda: subtype(G, *A, *B),
                  5: lambda: inst(True, G, A[0][1], *B), 6: lambda: inst(False, G, B[0][1], *A)}[kind]()
        yield from ((None, D) for D in judged)


def inside(thing):
    """Every expression in a tuple of them."""
    for part in thing:
        if isinstance(part, tuple):
            if part[0] >= E_VAR:
                yield part
            yield from inside(part[1:])


def has_rules(e):
    return all(thing[0] in (E_VAR, E_APP, E_ABS, E_ANN, E_INT, E_BOOL) for thing in inside(e))


def derived(question):
    """What the paper says of a question's words: "no rule", "not well-formed", or the list of its outcomes."""
    kind, _, G, e, A, B = parts(question)
    if not has_rules(e):
        return "no rule"
    if not is_context(G) or not all(well_formed(G, C) for C in A + B):
        return "not well-formed"
    found = set()
    try:
        found.update(outcomes(kind, G, e, A, B))
    except RecursionError:  # kinds 5 and 6 with the unknown in the type, which the paper's premises keep out: a search without end
        pass
    return sorted(found, key=str)
