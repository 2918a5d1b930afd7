"""Recorded answers as theorems by computation: in a scratch repository with the crate definition and a crate `recorded`, or in the crate
definition itself, as it is or edited."""
import pathlib
import re
import shutil
import subprocess

ROOT = pathlib.Path(__file__).resolve().parents[2]
PER_MODULE = 200
# what `rt` keeps in a crate's folder
OUT = shutil.ignore_patterns("out")

HEAD = """-- Recorded answers {first} to {last}, computed from the definition. Made by tests/recorded/computed.py.
use mathlib.Core.Path.{{◌≡◌, refl}}
use Prim.Native.Nat.{{ℕ}}
use mathlib.Core.List.{{List, [], ◌∷◌}}
use Rattle.definition.specs.Reply.{{Reply, reply, reply_computes}}

unfoldable flat : Reply → List ℕ
flat r = r.code ∷ r.at ∷ r.len ∷ r.units ∷ r.report
"""


def listed(words):
    return " ∷ ".join([*words, "[]"])


def theorem(number, line):
    sizes, question, numbers, report = (part.split() for part in line)
    return (
        f"\nanswer{number} : flat (reply {' '.join(sizes)} ({listed(question)})) ≡ {listed(numbers + report)}\n"
        f"unfolding flat reply_computes\nanswer{number} = refl\n"
    )


def write(folder, lines):
    """The repository in a folder that is not there yet; answers are numbered from 1."""
    proofs = folder / "crates/recorded/proofs"
    proofs.mkdir(parents=True)
    (folder / "crates/recorded/src").mkdir()
    (folder / "crates/recorded/src/lib.rt").write_text("// Nothing to run: the theorems are in proofs/.\n#![tactic(auto)]\n")
    (folder / "crates.txt").write_text("definition:\nrecorded: definition\n")
    shutil.copytree(ROOT / "crates/definition", folder / "crates/definition", ignore=OUT)
    modules = []
    for start in range(0, len(lines), PER_MODULE):
        part = lines[start : start + PER_MODULE]
        modules.append(f"From{start + 1}")
        text = HEAD.format(first=start + 1, last=start + len(part))
        text += "".join(theorem(start + 1 + i, line) for i, line in enumerate(part))
        (proofs / f"{modules[-1]}.antt").write_text(text)
    (proofs / "Lib.antt").write_text("".join(f"pub mod {name}\n" for name in modules))


def write_within(folder, lines):
    """The crate definition alone, in a folder of its name that is not there yet, with the answers as proofs of its own."""
    shutil.copytree(ROOT / "crates/definition", folder, ignore=OUT)
    (folder / "proofs").mkdir()
    (folder / "proofs/Lib.antt").write_text("pub mod Computed\n")
    text = HEAD.format(first=1, last=len(lines)) + "".join(theorem(number, line) for number, line in enumerate(lines, 1))
    (folder / "proofs/Computed.antt").write_text(text)


def check(folder):
    """Whether the prover computes every answer of the repository, and what it says."""
    run = subprocess.run(["rt", "check"], cwd=folder / "crates/recorded", capture_output=True, text=True)
    told = run.stdout + run.stderr
    return run.returncode == 0 and re.search("^logic=proved ", told, re.MULTILINE) is not None, told


def check_within(folder):
    """What the prover says of the crate definition alone, in a folder of its name."""
    run = subprocess.run(["rt", "check", folder.name], cwd=folder, capture_output=True, text=True)
    return run.stdout + run.stderr
