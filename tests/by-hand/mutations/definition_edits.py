"""Small edits of crates/definition/specs: every edit of every right side, by kind. Comments, imports, types and `unfolding` lines stay."""
import re
from typing import NamedTuple

from antt import clauses, declared

TESTS = {"leb": ["ltb", "eqb"], "ltb": ["leb", "eqb"], "eqb": ["leb", "ltb"], "&&": ["||"], "||": ["&&"]}
SIGNS = {"+": "-", "-": "+", "*": "+", "/": "%", "%": "/"}
TRUTH = {"true": "false", "false": "true"}
# what an edit may bring in from a library that the file uses
LIBRARY = {"Rattle.std.specs.Prelude": ["leb", "ltb", "eqb", "true", "false", "◌&&◌", "◌||◌", "◌+◌", "◌-◌", "◌*◌", "◌/◌", "◌%◌"]}
# an exchange of their arguments is the same text in another order
SYMMETRIC = {"eqb", "min", "same_name"}
# of a type with more constructors, only the next one takes a constructor's place
MANY = 4


class Edit(NamedTuple):
    """Spans of a file, each with the text that takes its place."""
    path: str
    kind: str
    definition: str
    spans: tuple

    def apply(self, text):
        for start, end, new in sorted(self.spans, reverse=True):
            text = text[:start] + new + text[end:]
        return text


# ---- What may take a name's place

def family(name):
    """Bound names that by custom stand for things of one type."""
    base = re.sub(r"['₀-₉]", "", name)
    if re.fullmatch(r"[Α-Ω]", base):
        return "context"
    if re.fullmatch(r"[A-Z]", base):
        return "type"
    if base in ("a", "b", "c"):
        return "type name"
    if base in ("e", "t", "x", "ts", "k", "r", "m", "s", "j"):
        return base
    return "letter" if len(base) == 1 else "word"


def others(group, name):
    """The members of a group that take a member's place."""
    if len(group) <= MANY:
        return [other for other in group if other != name]
    return [group[(group.index(name) + 1) % len(group)]]


class Known:
    """What is declared in the definition's files, as seen from one of them."""

    def __init__(self, module, files):
        self.files, self.module = files, module
        own = files[module]
        used = [name.split(".")[-1] for name in own.uses]
        self.seen = [other for other in used if other in files] + [module]
        self.types = {name: kind for other in self.seen for name, kind in files[other].types.items()}
        self.constructors = {name for other in files.values() for group in other.constructors for name, _ in group}
        counts = [name for other in self.seen for name in files[other].types]
        self.clash = {name for name in counts if counts.count(name) > 1}

    def siblings(self, name, definition):
        """Constructors or definitions of the same type that are there before `definition`."""
        if name not in self.types or name in self.clash:
            return []
        groups = [group for other in self.seen for group in self.files[other].constructors if name in dict(group)]
        if groups:
            kinds = dict(groups[0])
            return others([other for other, kind in groups[0] if kind == kinds[name]], name)
        before = list(self.types)
        before = before[:before.index(definition)] if definition in before else before
        made = [other for other in before if other not in self.constructors | self.clash and self.types[other] == self.types[name]]
        return others(made, name) if name in made else []

    def fields(self, name):
        """The fields of the same record and type."""
        for file in self.files.values():
            for record, field, kind in file.fields:
                if field == name:
                    return others([other for owner, other, same in file.fields if (owner, same) == (record, kind)], name)
        return []


# ---- Edits of one part

class Editor:
    """The edits of one clause, with the names that are bound at each part."""

    def __init__(self, text, known, clause):
        self.text, self.known, self.clause = text, known, clause

    def show(self, node):
        return self.text[node.start:node.end]

    def swap(self, one, two):
        return ((one.start, one.end, self.show(two)), (two.start, two.end, self.show(one)))

    def all(self):
        bound = [token.text for token in self.clause.left if re.match(r"\w", token.text) and token.text not in self.known.constructors]
        yield from self.walk(self.clause.right, [name for name in bound if name not in self.known.types])

    def walk(self, node, scope):
        act = getattr(self, node.kind, None)
        yield from act(node, scope) if act else ()
        scope = list(scope)
        for i, kid in enumerate(node.kids):
            if node.kind == "lambda" or node.kind == "let" and i == 1:
                scope = scope + [token.text for token in node.marks]
            yield from self.walk(kid, scope)
            if node.kind == "do":
                scope = scope + [token.text for token in kid.marks]

    def name(self, node, scope):
        name, span = self.show(node), (node.start, node.end)
        if name in scope:
            alike = [other for other in dict.fromkeys(scope) if other != name and family(other) == family(name)]
            return [("variable", ((*span, other),)) for other in alike]
        if name in TRUTH:
            return [("truth", ((*span, TRUTH[name]),))]
        if name in TESTS:
            return [("test", ((*span, other),)) for other in TESTS[name]]
        prefix, dot, bare = name.rpartition(".")
        return [("name", ((*span, prefix + dot + other),)) for other in self.known.siblings(bare, self.clause.definition)]

    def number(self, node, _):
        value = int(self.show(node))
        return [("number", ((node.start, node.end, str(new)),)) for new in (value + 1, value - 1) if new >= 0]

    def part(self, node, _):
        name = self.show(node)[1:]
        taken = [other for other in "012" if other != name] if name.isdigit() else self.known.fields(name)
        return [("part", ((node.start, node.end, "." + other),)) for other in taken]

    def group(self, node, _):
        return [("operands", self.swap(one, two)) for one, two in zip(node.kids, node.kids[1:]) if self.show(one) != self.show(two)]

    def record(self, node, _):
        return [("arguments", self.swap(one, two)) for one, two in zip(node.kids, node.kids[1:]) if self.show(one) != self.show(two)]

    def call(self, node, scope):
        head, arguments = self.show(node.kids[0]), [kid for kid in node.kids[1:] if kid.kind != "part"]
        if head in ("suc", "not") and len(arguments) == 1:
            yield "number" if head == "suc" else "test", ((node.start, node.end, self.show(arguments[0])),)
        kinds = [] if head in scope else self.known.types.get(head, [])
        if head == "pick" and len(arguments) >= 3:
            yield "branches", self.swap(arguments[1], arguments[2])
            return
        for i, one in enumerate(arguments):
            for j, two in enumerate(arguments[i + 1:], i + 1):
                fits = kinds[i] == kinds[j] if j < len(kinds) else j == i + 1 and not kinds
                if fits and head not in SYMMETRIC and self.show(one) != self.show(two):
                    yield "arguments", self.swap(one, two)

    def do(self, node, _):
        for i, one in enumerate(node.kids[:-1]):
            names = {token.text for token in one.marks}
            if not any(self.uses(kid, names) for kid in node.kids[i + 1:]):
                yield "statement", ((one.start, node.kids[i + 1].start, ""),)
            two = node.kids[i + 1]
            if i + 2 < len(node.kids) and not self.uses(two, names) and self.show(one) != self.show(two):
                yield "statement", self.swap(one, two)

    def step(self, node, scope):
        """A step that makes a type from a type: the type as it was."""
        asked = node.kids[0]
        if node.marks and asked.kind == "call":
            kinds = self.known.types.get(self.show(asked.kids[0]), [])
            if len(kinds) == len(asked.kids) and kinds[-1] == f"M {kinds[-2]}":
                yield "statement", ((asked.start, asked.end, f"give {self.show(asked.kids[-1])}"),)

    def uses(self, node, names):
        if node.kind == "name":
            return self.show(node) in names
        return any(self.uses(kid, names) for kid in node.kids)

    # ---- Chains of operators

    def chain(self, node, _):
        signs = [token.text for token in node.marks]
        for i, token in enumerate(node.marks):
            for new in TESTS.get(token.text, []):
                yield "test", ((token.start, token.end, new),)
            if token.text in SIGNS:
                yield "operator", ((token.start, token.end, SIGNS[token.text]),)
            yield from self.around(node, signs, i)

    def around(self, node, signs, i):
        """The operands beside an operator: exchanged, or one dropped."""
        one, two = node.kids[i], node.kids[i + 1]
        sign, after = signs[i], signs[i + 1] if i + 1 < len(signs) else ""
        rows = one.kind == two.kind == "group" and len(one.kids) == len(two.kids) == 2
        drop, swap = ((one.start, two.start, ""),), self.swap(one, two)
        different = self.show(one) != self.show(two)
        if sign == "or_else":
            yield "arms", drop
            if after == "or_else":
                yield "arms", swap
        elif sign in ("∷", "&"):
            table = one.kind == "group" and len(one.kids) == 2
            yield "rows" if table else "operands", drop
            if after == sign and different:
                yield "rows" if rows else "operands", self.swap(one.kids[1], two.kids[1]) if rows else swap
        elif sign == "++" or sign in ("-", "/", "%") and len(signs) == 1:
            if different:
                yield "operands", swap
            if sign == "++":
                yield "operands", drop
                yield "operands", ((one.end, two.end, ""),)
        elif sign == "▹":
            yield "operands", ((one.end, two.end, ""),)
            if i > 0 and different:
                yield "operands", swap


def exchanged(text, one, two):
    """The right sides of two clauses of one definition, where neither uses a name that the other does not bind."""
    def bound(clause):
        return {token.text for token in clause.left}

    def used(node):
        return {text[node.start:node.end]} if node.kind == "name" else set().union(*map(used, node.kids), set())

    missing = used(one.right) & (bound(one) - bound(two)) | used(two.right) & (bound(two) - bound(one))
    same = text[one.right.start:one.right.end] == text[two.right.start:two.right.end]
    if one.definition == two.definition and not same and not missing:
        a, b = one.right, two.right
        yield "clauses", ((a.start, a.end, text[b.start:b.end]), (b.start, b.end, text[a.start:a.end]))


# ---- All

KINDS = ["number", "operator", "test", "truth", "name", "variable", "part", "arguments", "branches", "operands", "rows", "arms", "statement",
         "clauses"]


def opened(text, module, files):
    """The text with the names imported that an edit may bring in; it says the same."""
    known = Known(module, files)
    for path, names in files[module].uses.items():
        other = path.split(".")[-1]
        more = LIBRARY.get(path, [])
        if other in files:
            more = [name for name in files[other].types if name not in known.clash and not re.search(r"_computes?$", name)]
        more = [name for name in more if name not in names]
        text = text.replace("use " + path + ".{", "use " + path + ".{" + "".join(name + ", " for name in more))
    return text


def edits(folder):
    """The texts that are edited, by path, and every edit of them, each once."""
    raw = {path.stem: path.read_text() for path in sorted(folder.glob("*.antt")) if path.stem != "Lib"}
    files = {module: declared(text) for module, text in raw.items()}
    texts, found = {}, {}
    for module, raw_text in raw.items():
        text = texts[module] = opened(raw_text, module, files)
        known, equations = Known(module, files), clauses(text)
        made = [(clause.definition, edit) for clause in equations for edit in Editor(text, known, clause).all()]
        made += [(one.definition, edit) for one, two in zip(equations, equations[1:]) for edit in exchanged(text, one, two)]
        for definition, (kind, spans) in made:
            edit = Edit(module, kind, definition, spans)
            new = edit.apply(text)
            if new != text:
                found.setdefault((module, new), edit)
    return texts, sorted(found.values(), key=lambda edit: (edit.path, edit.spans))
