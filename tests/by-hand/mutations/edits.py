"""Small edits of Rattle source: every mutant of the function bodies under crates/*/src, by kind. Contracts and comments are not touched."""
import re
from typing import NamedTuple

OPERATORS = {"<": "<=", "<=": "<", ">": ">=", ">=": ">", "==": "!=", "!=": "==", "+": "-", "-": "+", "*": "+", "/": "*", "%": "/",
             "&&": "||", "||": "&&", "+=": "-=", "-=": "+="}
PAIRS = [("true", "false"), ("INT", "BOOL"), ("BadShape", "ReservedName")]
NAMED = {a: b for pair in PAIRS for a, b in (pair, pair[::-1])}
NUMBER = re.compile(r"(?<![\w.])\d[\d_]*(?!\w)")
ARM = re.compile(r"^(\s*)(\S.*?) => (.*),$")
FIELD = re.compile(r"^\s*(\w+): (.*[^{]),$")


class Mutant(NamedTuple):
    """The lines from start to end of a file become `new`."""
    crate: str
    path: str
    kind: str
    function: str
    start: int
    end: int
    new: tuple


class Tables(NamedTuple):
    """Parameter types by callee, and field types by struct."""
    calls: dict
    structs: dict


# ---- What is declared

def types_of(text):
    """The types of a list of parameters or fields, NAME: TYPE or TYPE alone."""
    return [part.split(": ", 1)[-1].strip() for part in text.split(",") if part.strip()]


def tables(sources):
    """From the text of every file, by crate."""
    calls, structs = {}, {}
    for crate, text in sources:
        for name, inside in re.findall(r"\bfn (\w+)(?:<[^>]*>)?\(([^)]*)\)", text):
            calls[crate, name] = types_of(inside)
        for owner, inside in re.findall(r"\benum (\w+) \{(.*?)\n\}", text, re.DOTALL):
            for name, parts in re.findall(r"^    (\w+)\((.*)\),$", inside, re.MULTILINE):
                calls[owner, name] = types_of(parts)
        for owner, inside in re.findall(r"\bstruct (\w+) \{([^}]*)\}", text):
            structs[owner] = dict(re.findall(r"(\w+): ([^,]+),", inside))
        for owner, names in re.findall(r"^use (\w+)::([^;]*);", text, re.MULTILINE):
            for name in re.findall(r"\b[a-z]\w*", names):
                calls[crate, name] = calls.get((owner, name), [])
    return Tables(calls, structs)


def bodies(lines):
    """Each function's name, and where its body's lines begin and end."""
    name, start = None, None
    for i, line in enumerate(lines):
        head = re.match(r"(\s*)(?:pub )?(?:extern \"C\" )?fn (\w+)", line)
        if head:
            indent, name, start = *head.groups(), None
        if name and start is None and (line == indent + "{" or line.endswith(") {")):
            start = i + 1
        elif name and start is not None and line == indent + "}":
            yield name, start, i
            name = None


# ---- One line

def splice(line, match, text):
    return line[:match.start()] + text + line[match.end():]


def words(text):
    return set(re.findall(r"\w+", text))


def operators(lines, i, _):
    for match in re.finditer(r"(?<= )\S+(?= )", lines[i]):
        if match.group() in OPERATORS:
            yield i, i + 1, [splice(lines[i], match, OPERATORS[match.group()])]
    for match in re.finditer(r"(?<=\s)!(?=\w)", lines[i]):
        yield i, i + 1, [splice(lines[i], match, "")]


def constants(lines, i, _):
    pattern = lines[i].find("=>")
    for match in NUMBER.finditer(lines[i]):
        if match.start() > pattern:
            value = int(match.group().replace("_", ""))
            for other in {value + 1, 1 - value if value < 2 else value + 1}:
                yield i, i + 1, [splice(lines[i], match, str(other))]
    for match in re.finditer(r"\w+", lines[i]):
        if match.group() in NAMED and match.start() > pattern:
            yield i, i + 1, [splice(lines[i], match, NAMED[match.group()])]


def arguments(lines, i, known):
    """Two arguments of one type, neighbours among those of that type."""
    for match in re.finditer(r"(\w+::)?(\w+)\(", lines[i]):
        end, args = split_arguments(lines[i], match.end())
        types = known.signature((match.group(1) or "").rstrip(":"), match.group(2))
        if len(types) != len(args):
            continue
        for a in range(len(args)):
            b = next((b for b in range(a + 1, len(args)) if types[b] == types[a]), None)
            if b is not None and args[a] != args[b]:
                new = list(args)
                new[a], new[b] = new[b], new[a]
                yield i, i + 1, [lines[i][:match.end()] + ", ".join(new) + lines[i][end:]]


def split_arguments(line, start):
    """The arguments from start to the closing parenthesis, and its place; none where it stands on another line."""
    depth, args, last = 0, [], start
    for i in range(start, len(line)):
        if depth == 0 and line[i] in ",)":
            args.append(line[last:i].strip())
            last = i + 1
        if depth == 0 and line[i] == ")":
            return i, [arg for arg in args if arg]
        depth += (line[i] in "([{") - (line[i] in ")]}")
    return len(line), []


# ---- Several lines

def arms(lines, i, _):
    """Two neighbouring arms with each other's bodies; an arm's number."""
    one, two = ARM.match(lines[i]), ARM.match(lines[i + 1])
    if one:
        for match in NUMBER.finditer(one[2]):
            pattern = splice(one[2], match, str(int(match.group()) + 1))
            yield i, i + 1, [f"{one[1]}{pattern} => {one[3]},"]
    if one and two and one[1] == two[1] and one[3] != two[3]:
        if not (words(one[2]) & words(one[3]) or words(two[2]) & words(two[3])):
            yield i, i + 2, [f"{one[1]}{one[2]} => {two[3]},", f"{one[1]}{two[2]} => {one[3]},"]


def statement(line):
    return line.endswith(";") and not re.match(r"\s*(\}|return\b)", line)


def indent(line):
    return len(line) - len(line.lstrip())


def order(lines, i, known):
    """Two neighbouring statements, of which one may write and the other reads or writes."""
    one, two = lines[i], lines[i + 1]
    if not (statement(one) and statement(two) and indent(one) == indent(two)):
        return
    bound = re.match(r"\s*let (?:mut )?(\w+)", one)
    meet = known.acts(one) and known.reads(two) or known.acts(two) and known.reads(one)
    if meet and not (bound and bound[1] in words(two)):
        yield i, i + 2, [two, one]


def drops(lines, i, _):
    """A statement that names nothing, or an early return with its condition."""
    if statement(lines[i]) and not re.match(r"\s*let\b", lines[i]):
        yield i, i + 1, []
    if re.match(r"\s*if .* \{$", lines[i]) and re.match(r"\s*return\b.*;$", lines[i + 1]) and lines[i + 2].strip() == "}":
        yield i, i + 3, []


def fields(lines, i, known):
    """A field's value becomes that of another field of the same type, in the same literal."""
    head = re.search(r"\b([A-Z]\w*) \{$", lines[i])
    types = known.tables.structs.get(head[1], {}) if head else {}
    inside, j = {}, i + 1
    while types and indent(lines[j]) > indent(lines[i]):
        match = FIELD.match(lines[j])
        if match and match[1] in types and indent(lines[j]) == indent(lines[i]) + 4:
            inside[match[1]] = (j, match[2])
        j += 1
    for name, (at, value) in inside.items():
        for other, (_, taken) in inside.items():
            if types[other] == types[name] and taken != value:
                yield at, at + 1, [lines[at].replace(f"{name}: {value},", f"{name}: {taken},")]


KINDS = {"operator": operators, "constant": constants, "arm": arms, "order": order, "drop": drops, "arguments": arguments, "field": fields}


class Known:
    """What is declared, as seen from one crate."""

    def __init__(self, crate, declared):
        self.crate, self.tables = crate, declared

    def signature(self, owner, name):
        return self.tables.calls.get((owner or self.crate, name), [])

    def acts(self, line):
        """Whether the statement may write: no let, or a call that takes a mutable slice."""
        callees = re.findall(r"(?:(\w+)::)?(\w+)\(", line)
        return not re.match(r"\s*let\b", line) or any("&mut" in " ".join(self.signature(*callee)) for callee in callees)

    def reads(self, line):
        return self.acts(line) or re.search(r"[(\[]", line) is not None


def mutants(root):
    """Every mutant of every body, each once."""
    files = sorted((root / "crates").glob("*/src/**/*.rt"))
    sources = [(path.relative_to(root / "crates").parts[0], path.read_text()) for path in files]
    # twice, since a `use` may stand before what it names
    declared = tables(sources + sources)
    found = {}
    for path, (crate, text) in zip(files, sources):
        lines, known = text.splitlines(), Known(crate, declared)
        for function, start, end in bodies(lines):
            for i in (i for i in range(start, end) if not re.match(r"\s*//", lines[i])):
                for kind, edits in KINDS.items():
                    for first, last, new in edits(lines, i, known):
                        if last <= end and new != lines[first:last]:
                            key = (str(path.relative_to(root)), first, last, tuple(new))
                            found.setdefault(key, Mutant(crate, key[0], kind, function, *key[1:]))
    return list(found.values())
