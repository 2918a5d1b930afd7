"""Questions that nest as deeply as 2,048 words allow, or fewer, a family for each way to go deep: its name, and its question by how often
it nests (a lambda that is called before the next one is made). Types to be reported, nested more and more. Samples: theatres' formulas, the
recorded answers, fuzz inputs."""
import itertools
import pathlib
import struct
import subprocess
import sys

TESTS = pathlib.Path(__file__).resolve().parent.parent
sys.path.insert(0, str(TESTS))
from shared.recorded import ANSWERS, of  # noqa: E402

MOST = 2048
TRUE, ONE, X = [23, 1], [22, 1, 0], [16, 5]
INFER, CHECK, SUBTYPE, INST_L, INST_R, RUN = 1, 2, 4, 5, 6, 7
LEFT, RIGHT, ALL = ([5], [1]), ([5, 1], []), ([6, 9], [])  # what stands before and after the inner type
TYPES = {"left-arrows": LEFT, "right-arrows": RIGHT, "foralls": ALL}
# how often types nest that are reported, beside as often as 2,048 words allow
NESTINGS = (1, 4, 16, 64, 128, 256, 384, 512, 640, 768, 896)


def question(kind, context=(), expr=(), left=(), right=(), mode=0):
    words = [kind, mode]
    for section in (context, expr, left, right):
        words += [len(section), *section]
    return words


def nest(around, n, inner):
    before, after = around
    return before * n + inner + after * n


def most(build, words=MOST):
    """The greatest n for which build(n) has no more than so many words."""
    low, high = 0, words
    while low < high:
        middle = (low + high + 1) // 2
        low, high = (middle, high) if len(build(middle)) <= words else (low, middle - 1)
    return low


def broken(kind, before, words):
    """A question that ends with the section of these words, after `before` that are empty."""
    return [kind, 0, *[0] * before, len(words), *words]


def readings():
    """Broken questions: an item that begins at each word and never ends, or entries to the end."""
    heads = {"app": [17], "tapp": [19], "ann": [21], "if": [25], "tabs": [20, 1], "let": [24, 1], "binop": [26, 1]}
    for name, head in heads.items():
        yield f"read-{name}", lambda n: broken(INFER, 1, head * n)
    for name, (before, _) in TYPES.items():
        yield f"read-{name}", lambda n: broken(SUBTYPE, 2, before * n)
        yield f"read-bound-{name}", lambda n: broken(INFER, 0, [32, 1] + before * n)
        yield f"read-annotated-{name}", lambda n: broken(INFER, 1, [18, 1] + before * n)
    for name, entry in {"marks": [36, 1], "solutions": [35, 1, 1]}.items():
        yield f"read-{name}", lambda n: broken(INFER, 0, entry * n)
    yield "load-marks", lambda n: question(INFER, context=[36, 1] * n, expr=TRUE)


def expressions():
    around = {"tapp": ([19], [1]), "ann": ([21], [1]), "app": ([17], TRUE), "if": ([25], TRUE + TRUE), "binop": ([26, 1], TRUE),
              "equal": ([26, 7], TRUE), "let": ([24, 5], TRUE), "let-body": ([24, 5] + TRUE, []), "abs": ([18, 5, 1], []),
              "tabs": ([20, 1], []), "argument": ([17] + X, [])}
    for name, parts in around.items():
        context = [32, 5, 5, 1, 1] if name == "argument" else []
        yield f"infer-{name}", lambda n: question(INFER, context, nest(parts, n, ONE))
    yield "check-abs", lambda n: question(CHECK, (), nest(([18, 5, 1], []), n, ONE), (), nest(RIGHT, n, [1]))
    yield "check-foralls", lambda n: question(CHECK, (), ONE, (), nest(ALL, n, [1]))


def types():
    for name, parts in TYPES.items():
        tall = lambda n: nest(parts, n, [4, 8])  # noqa: E731
        yield f"subtype-{name}", lambda n: question(SUBTYPE, (), (), tall(n), tall(n))
        yield f"subtype-shared-{name}", lambda n: question(INFER, [32, 5] + nest(parts, n, [1]), [25] + TRUE + X + X)
        yield f"inst_l-{name}", lambda n: question(INST_L, (), (), [4, 1], tall(n))
        yield f"inst_r-{name}", lambda n: question(INST_R, (), (), tall(n), [4, 1])
        yield f"occurs-{name}", lambda n: question(SUBTYPE, (), (), [4, 1], tall(n))
        yield f"apply-{name}", lambda n: question(INFER, [32, 5] + tall(n), [17] + X + TRUE)
        yield f"substitute-{name}", lambda n: question(INFER, [32, 5, 6, 8] + tall(n), [19] + X + [1])
        yield f"compare-{name}", lambda n: question(CHECK, (), [18, 5] + tall(n) + ONE, (), [5] + tall(n) + [1], mode=1)
        yield f"solved-{name}", lambda n: question(CHECK, [35, 8] + tall(n), ONE, (), [4, 8])
        yield f"run-{name}", lambda n: question(RUN, (), [18, 5] + tall(n) + ONE)
    letters = lambda n, letter: nest(([6, letter], []), n, [3, letter])  # noqa: E731
    yield "compare-letters", lambda n: question(CHECK, (), [18, 5] + letters(n, 8) + ONE, (), [5] + letters(n, 9) + [1], mode=1)
    chain = lambda n: [word for i in range(n) for word in (35, i, 4, i + 1)]  # noqa: E731
    yield "apply-solutions", lambda n: question(CHECK, chain(n), ONE, (), [4, 0])


# An expression that needs no context and makes two unknowns whose solutions lead to each other: x : 2 to 2, taken as 1 to 1, then applied.
LOOP = [18, 5, 5, 4, 2, 4, 2, 17, 21, *X, 5, 4, 1, 4, 1, *TRUE]


def combined():
    """Judgements as deep as words allow, and under them a context application that spends the rest of the budget."""
    for tenths in range(11):
        mixed = lambda n: nest(([21], [1]), n * tenths // 10, nest(([19], [1]), n - n * tenths // 10, LOOP))  # noqa: E731
        yield f"{tenths}-tenths-ann-then-tapp-then-loop", lambda n: question(INFER, (), mixed(n))
    yield "binop-then-loop", lambda n: question(INFER, (), nest(([26, 1], TRUE), n, LOOP))
    yield "tapp-then-solved-loop", lambda n: question(INFER, [35, 8, 6, 9, 4, 8], nest(([19], [1]), n, [21, *ONE, 4, 8]))


def reported():
    """Types to be reported, as a result, in contexts, in a type error; as they stand in the question, or made by substitution: the family, how
    often the type nests, the question's words."""
    made = [19, *X, 1]
    for name, parts in TYPES.items():
        tall = lambda n: nest(parts, n, [4, 1])  # noqa: E731
        for where, build in {
            "result-written": lambda n: question(INFER, [32, 5] + tall(n), X),
            "result-made": lambda n: question(INFER, [32, 5, 6, 1] + tall(n), made),
            "context-written": lambda n: question(INFER, [32, 5] + tall(n), ONE),
            "context-made": lambda n: question(INFER, [32, 5, 6, 1] + tall(n), [24, 6] + made + ONE),
            "error-written": lambda n: question(SUBTYPE, (), (), [5] + tall(n) + [1], [2]),
            "error-made": lambda n: question(INFER, [32, 5, 6, 1, 5] + tall(n) + [1], [21] + made + [2]),
        }.items():
            for n in (*NESTINGS, most(build)):
                yield f"{where}-{name}", n, build(n)


def formulas():
    """Theatres' formulas, in both modes."""
    for mode in ([], ["--strict"]):
        told = subprocess.run([TESTS / "formulas/compile.py", *mode, TESTS / "formulas/formulas.txt"], stdout=subprocess.PIPE, check=True, text=True)
        for line in told.stdout.splitlines():
            yield "formula", line.rpartition("|")[2].split()


def samples(folders):
    for answer in of(ANSWERS):
        yield "recorded", answer.question.split()
    for folder in folders:
        for path in pathlib.Path(folder).iterdir():
            data = path.read_bytes()[16:]
            yield "fuzzed", struct.unpack(f"<{len(data) // 4}I", data[:len(data) // 4 * 4])


def nested(words=MOST):
    """Pairs of a family's name and the words of its deepest question that has no more than so many."""
    for name, build in itertools.chain(readings(), expressions(), types(), combined()):
        if len(build(0)) <= words:
            yield name, build(most(build, words))
