"""Definitions in antt as trees: what a file declares, and the right side of every clause, each part with its place in the text."""
import re
from typing import NamedTuple

TOKEN = re.compile(r"--[^\n]*|[(){},;]|λ|\.\w*|[^\s(){},;]+")
OPERATORS = {"∷", "++", "&&", "||", "+", "-", "*", "/", "%", "▹", "&", "or_else", "×", "→"}
# a variable with its fields behind it, one token; before the dot of another module's name stands a capital
FIELDS = re.compile(r"[a-z][\w']*(?:\.\w+)+")
HEADS = {"use", "pub", "unfoldable", "abbrev", "infixl", "infixr", "unfolding", "mutual"}
PAIRS = {"(": ")", "{": "}"}


class Token(NamedTuple):
    text: str
    start: int
    end: int
    line: int


class Node(NamedTuple):
    """kind: name, number, part (a projection), group, record, call, chain, lambda, let, do, step. `marks` are the tokens between kids:
    a chain's operators, a record's field names, the names that a lambda, let or step binds."""
    kind: str
    start: int
    end: int
    kids: tuple = ()
    marks: tuple = ()


class Clause(NamedTuple):
    """One equation: the definition's name, the tokens left of `=`, the tree right of it."""
    definition: str
    left: tuple
    right: Node


class Declared(NamedTuple):
    """What a file declares: a type's parts by name, the constructors of each data type in order, the fields of records by type."""
    types: dict
    constructors: list
    fields: list
    uses: dict


# ---- Tokens and blocks

def tokens(text, start, end):
    found = []
    for match in TOKEN.finditer(text, start, end):
        word, line = match.group(), text.count("\n", 0, match.start())
        if word.startswith("--"):
            continue
        if len(word) > 1 and word.endswith("."):
            found.append(Token(word[:-1], match.start(), match.end() - 1, line))
            found.append(Token(".", match.end() - 1, match.end(), line))
        else:
            found.append(Token(word, match.start(), match.end(), line))
    return found


def blocks(text):
    """The tokens of each block: a line, and the deeper ones below it. What `mutual` holds is taken line by line too."""
    spans, offset, inside = [], 0, 0
    for line in text.splitlines(keepends=True):
        bare, depth = line.strip(), len(line) - len(line.lstrip())
        if bare and not bare.startswith("--"):
            if depth == 0:
                inside = 2 if bare.endswith("mutual") else 0
            if not bare.endswith("mutual"):
                if depth in (0, inside):
                    spans.append([offset, offset])
                spans[-1][1] = offset + len(line)
        offset += len(line)
    return [found for found in (tokens(text, *span) for span in spans) if found]


def parts_of(found):
    """The parts of a type between its outer arrows, implicit ones left out."""
    parts, depth = [[]], 0
    for token in found:
        depth += (token.text in PAIRS) - (token.text in PAIRS.values())
        if token.text == "→" and depth == 0:
            parts.append([])
        else:
            parts[-1].append(token.text)
    return [" ".join(part) for part in parts if part and part[0] != "{"]


def lined(found):
    """The tokens below the first line, by line."""
    by_line = {}
    for token in found:
        by_line.setdefault(token.line, []).append(token)
    return list(by_line.values())[1:]


def declared(text):
    types, constructors, fields, uses = {}, [], [], {}
    for block in blocks(text):
        words = [token.text for token in block]
        rest = [word for word in words if word not in ("unfoldable", "abbrev", "pub")]
        if words[0] == "use" and "{" in words:
            uses[words[1]] = [word for word in words[words.index("{") + 1:] if word not in ",}"]
        elif rest[0] == "data":
            group = []
            for line in lined(block):
                names = [token.text for token in line]
                kind = parts_of(line[names.index(":") + 1:])
                group += [(name, kind) for name in names[:names.index(":")]]
            constructors.append(group)
            types.update(group)
        elif rest[0] == "record":
            for line in lined(block):
                names = [token.text for token in line]
                kind = " ".join(names[names.index(":") + 1:])
                fields += [(rest[1], name, kind) for name in names[:names.index(":")] if name != "pub"]
        elif words[0] in ("unfoldable", "abbrev", "pub") and rest[1:2] == [":"]:
            types[rest[0]] = parts_of(block[words.index(":") + 1:])
    return Declared(types, constructors, fields, uses)


# ---- Expressions

def level(found):
    """Each token with its depth in brackets; a closing one has that of its opening one."""
    depth = 0
    for i, token in enumerate(found):
        depth -= token.text in PAIRS.values()
        yield i, token, depth
        depth += token.text in PAIRS


def split(found, stops):
    """The runs between tokens of `stops` outside brackets, and these tokens."""
    runs, between, last = [], [], 0
    for i, token, depth in level(found):
        if depth == 0 and token.text in stops:
            runs.append(found[last:i])
            between.append(token)
            last = i + 1
    return runs + [found[last:]], between


def statements(found):
    """The statements behind `do`: after one another with `;`, or a line each."""
    if found[1].line == found[0].line:
        return split(found[1:], {";"})[0]
    runs, last = [], None
    for _, token, depth in level(found[1:]):
        if depth == 0 and token.line != last and token.text not in PAIRS.values():
            runs.append([])
        last = token.line
        runs[-1].append(token)
    return runs


def names_in(found):
    return tuple(token for token in found if re.fullmatch(r"[^\W\d_][^\W_]*['₁-₉]*|\w+'*", token.text))


def expression(found):
    start, end, head = found[0].start, found[-1].end, found[0].text
    if head == "λ":
        (binders, *_), (stop, *_) = split(found, {"."})
        body = expression([token for token in found if token.start > stop.start])
        return Node("lambda", start, end, (body,), names_in(binders[1:]))
    if head == "let":
        (binder, *_), (equal, *_) = split(found, {"="})
        behind = [token for token in found if token.start > equal.start]
        (value, *_), (stop, *_) = split(behind, {"in"})
        body = expression([token for token in found if token.start > stop.start])
        return Node("let", start, end, (expression(value), body), (binder[1],))
    if head == "do":
        return Node("do", start, end, tuple(step(run) for run in statements(found)))
    runs, between = split(found, OPERATORS)
    if between:
        return Node("chain", start, end, tuple(expression(run) for run in runs), tuple(between))
    return call(found)


def step(found):
    runs, arrow = split(found, {"←"})
    return Node("step", found[0].start, found[-1].end, (expression(runs[-1]),), names_in(runs[0]) if arrow else ())


def call(found):
    kids, i = [], 0
    while i < len(found):
        token = found[i]
        if token.text in PAIRS or token.text == "record":
            j = next(j for j, other, depth in level(found[i:]) if depth == 0 and other.text in PAIRS.values()) + i
            inside = found[i + 1 + (token.text == "record"):j]
            kids.append(bracket(token, inside, found[j]))
            i = j + 1
            continue
        kids.append(word(token))
        i += 1
    return kids[0] if len(kids) == 1 else Node("call", found[0].start, found[-1].end, tuple(kids))


def word(token):
    """A name, a number or a projection; a variable with its fields as a call."""
    if not FIELDS.fullmatch(token.text):
        kind = "part" if token.text.startswith(".") else "number" if token.text[0].isdigit() else "name"
        return Node(kind, token.start, token.end)
    kids = [Node("part" if each[0][0] == "." else "name", token.start + each.start(), token.start + each.end())
            for each in re.finditer(r"\.?[^.]+", token.text)]
    return Node("call", token.start, token.end, tuple(kids))


def bracket(first, inside, last):
    if first.text == "record":
        fields = [split(run, {"="})[0] for run in split(inside, {";"})[0]]
        return Node("record", first.start, last.end, tuple(expression(value) for _, value in fields), tuple(name[0] for name, _ in fields))
    return Node("group", first.start, last.end, tuple(expression(run) for run in split(inside, {","})[0] if run))


def clauses(text):
    """Every equation of a file but those that only open definitions (`= tt`)."""
    name, found = None, []
    for block in blocks(text):
        words = [token.text for token in block]
        rest = [word for word in words if word not in ("unfoldable", "abbrev", "pub")]
        if words[0] in HEADS:
            name = rest[0] if rest[1:2] == [":"] else name
        elif "=" in words and words[-2:] != ["=", "tt"]:
            at = words.index("=")
            found.append(Clause(name, tuple(block[:at]), expression(block[at + 1:])))
    return found
