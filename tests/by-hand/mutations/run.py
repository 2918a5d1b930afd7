#!/usr/bin/env python3
"""Small edits to the source, one at a time, and what the prover says of each. Not part of the gate; docs/runs/MUTATIONS.md has the figures.

usage: run.py --count N --seed S [--crate NAME] [--automatic] [--scratch DIR] [--minutes M] [--limit SECONDS]
       run.py --list                    counts all edits, by crate and kind

The edits are made in a copy of the repository (DIR, which is new or was made here, and is kept; else a temporary one). Each is asked of
`rt check`, which looks only at what the edit changes; an edit that is accepted is asked again with nothing kept. The sample takes one edit of
every kind from every crate in turn (of one kind from a slow crate), so that S fixes the order and N how far it goes, M at most. A refusal
counts as
  compiler  the edit does not parse, type-check or borrow-check
  fact      something that was to be proved is not, or is another statement than the one that the proof proves
  both      that, and the goals are others than those that the proof names: a fact may fail only because a name means another
  shape     the goals are others, and nothing else is said: it tells nothing about the contract
With --automatic only functions without a proof by hand are edited: there the prover looks for one anew, and nothing is refused for shape.
"""
import argparse
import collections
import difflib
import os
import pathlib
import random
import re
import shutil
import signal
import subprocess
import sys
import tempfile
import time

from edits import KINDS, mutants

ROOT = pathlib.Path(__file__).resolve().parents[3]
sys.path[:0] = [str(ROOT / "tests"), str(ROOT / "tools")]
from answers import needs  # noqa: E402
from shared.script import number, ours  # noqa: E402

CHECK = ["nice", "-n", "5", "rt", "check", "--jobs", "1"]
# what a folder has that was made here
MADE_HERE = ".made-by-run.py"
# each crate's goals without an edit
KNOWN = {}
# crates in which an edit costs the most time
SLOW = {"inference", "instantiation", "subtyping", "entry", "reading", "report", "sized", "host", "desk"}
CYCLE = re.compile(r"^#\[cycle\((\w+)\)\]\n(?:(?:#|//).*\n)*(?:pub )?fn (\w+)", re.MULTILINE)
VERDICTS = ["compiler", "fact", "both", "shape", "accepted", "none"]
# an error that only passes on another one
PASSED_ON = re.compile(r"error: \d+ declarations? that depends? on |was not admitted")
# an error about which goals and names there are, not about whether one holds
SHAPE = re.compile(r"that can be named from here|has no field|components but its type has|needs a function \(or path\) type to bind"
                   r"|is not a (field|function|record)|has no component|too (many|few) arguments"
                   r"|this λ is checked against|this λ has \d+ binders")
# an answer that fails: its function's folder below proofs/, and its goal
ANSWER = re.compile(r"\./proofs/(\S+)/Answers\.antt:\d+:\d+: error: `([^`]+)`")


def sample(found, count, seed):
    """One edit of each crate and kind in turn, in a random order; of a slow crate one kind in a turn."""
    dice, strata = random.Random(seed), collections.defaultdict(list)
    for mutant in found:
        strata[mutant.crate, mutant.kind].append(mutant)
    for members in strata.values():
        dice.shuffle(members)
    chosen = []
    while len(chosen) < count and any(strata.values()):
        keys, taken = [key for key in strata if strata[key]], collections.Counter()
        dice.shuffle(keys)
        for crate, kind in keys:
            taken[crate] += 1
            if len(chosen) < count and (crate not in SLOW or taken[crate] == 1):
                chosen.append(strata[crate, kind].pop())
    return chosen


def by_hand():
    """The functions that have a proof by hand, with their crates: a folder of proofs/ is named after one, or, behind a +, after a cycle."""
    folders = (ROOT / "crates").glob("*/proofs/**/")
    named = {(folder.relative_to(ROOT / "crates").parts[0], folder.name.removeprefix("+")) for folder in folders}
    sources = [(file.relative_to(ROOT / "crates").parts[0], file.read_text()) for file in (ROOT / "crates").glob("*/src/**/*.rt")]
    cycles = [(crate, *found) for crate, text in sources for found in CYCLE.findall(text)]
    return named | {(crate, name) for crate, cycle, name in cycles if (crate, cycle) in named}


# ---- One edit

def ask(scratch, crate, limit):
    """What `rt check` says: its status (None past the limit), its text, the seconds."""
    start = time.time()
    child = subprocess.Popen(CHECK, cwd=scratch / "crates" / crate, stdout=subprocess.PIPE, stderr=subprocess.STDOUT, text=True,
                             start_new_session=True)
    try:
        text, status = child.communicate(timeout=limit)[0], child.returncode
    except subprocess.TimeoutExpired:
        os.killpg(child.pid, signal.SIGKILL)
        text, status = child.communicate()[0], None
    return status, text, time.time() - start


def verdict(status, text, known, now):
    """One of VERDICTS, and the line that decides it; `known` are the goals without the edit, `now` gives those with it."""
    if status == 0 and "\nlogic=proved" in text:
        return "accepted", ""
    lines = text.splitlines()
    refused = [line for line in lines if re.search(r"\.rt:\d+:\d+: error", line)]
    if refused:
        return "compiler", refused[0]
    if status != 1 or "logic=not-proved" not in text:
        return "none", (lines or [""])[-1]
    said = [line for line in lines if re.search(r"\.antt:\d+:\d+: error: |: it is not proved that ", line) and not PASSED_ON.search(line)]
    if not said:
        return "none", (lines or [""])[-1]
    changed = now() if any(ANSWER.search(line) and not SHAPE.search(line) for line in said) else known
    shape = [line for line in said if SHAPE.search(line) or namesakes(line, changed) != namesakes(line, known)]
    facts = [line for line in said if line not in shape]
    return ("both" if shape else "fact", facts[0]) if facts else ("shape", shape[0])


def namesakes(line, found):
    """The goals whose names differ from a failed answer's at most by the number behind: it counts them, so with one more a name means another."""
    answer = ANSWER.search(line)
    names = found.get(answer[1], []) if answer else []
    return [name for name in names if re.sub(r"-\d+$", "", name) == re.sub(r"-\d+$", "", answer[2])]


def goals(scratch, crate):
    """The names of each function's goals, by its folder below proofs/."""
    folder = scratch / "goals"
    shutil.rmtree(folder, ignore_errors=True)
    run = subprocess.run([*CHECK, "--generated", str(folder)], cwd=scratch / "crates" / crate, stdout=subprocess.DEVNULL, stderr=subprocess.DEVNULL)
    if run.returncode not in (0, 1, 3):  # 1 and 3: they are written, and not proved
        sys.exit(f"`rt check --generated` fails in crates/{crate}")
    proofs = folder / f"Rattle-{crate}-proofs"
    return {str(file.parent.relative_to(proofs)): needs(file) for file in proofs.rglob("Goals.antt")}


def try_edit(scratch, mutant, limit):
    """The verdict, its reason, the seconds and the whole text. The file is put back."""
    path = scratch / mutant.path
    before = path.read_text()
    if mutant.crate not in KNOWN:
        KNOWN[mutant.crate] = goals(scratch, mutant.crate)
    known, now = KNOWN[mutant.crate], lambda: goals(scratch, mutant.crate)
    path.write_text("\n".join(edited(before, mutant)) + "\n")
    try:
        status, text, seconds = ask(scratch, mutant.crate, limit)
        found, reason = verdict(status, text, known, now)
        if found == "accepted":
            forget(scratch / "crates" / mutant.crate)
            status, text, more = ask(scratch, mutant.crate, limit)
            found, reason = verdict(status, text, known, now)
            seconds += more
    finally:
        path.write_text(before)
    return found, reason, seconds, text


def forget(crate):
    """Drops what checks in a crate's folder kept. An empty folder stays, so that rt takes none from another copy."""
    kept = crate / "out/incremental"
    shutil.rmtree(kept, ignore_errors=True)
    kept.mkdir(parents=True)


def edited(text, mutant):
    lines = text.splitlines()
    return lines[:mutant.start] + list(mutant.new) + lines[mutant.end:]


def diff(mutant):
    lines = (ROOT / mutant.path).read_text().splitlines()
    name = f"{mutant.path} ({mutant.function}, {mutant.kind})"
    return "\n".join(difflib.unified_diff(lines, edited("\n".join(lines), mutant), name, name, n=1, lineterm=""))


# ---- All

def prepare(scratch):
    """A copy of the crates in which rt may write; what rt keeps in their out/ stays from run to run."""
    scratch.mkdir(parents=True, exist_ok=True)
    (scratch / MADE_HERE).touch()
    for part in (scratch / "crates").glob("*/*"):
        if part.name != "out":
            shutil.rmtree(part) if part.is_dir() else part.unlink()
    shutil.copytree(ROOT / "crates", scratch / "crates", symlinks=True, dirs_exist_ok=True, ignore=shutil.ignore_patterns("out"))
    shutil.copy(ROOT / "crates.txt", scratch)
    (scratch / "mutants").mkdir(exist_ok=True)


def run(scratch, chosen, limit, minutes):
    """The edits whose turn comes in time, each with its verdict. Without an edit everything must be proved."""
    for crate in sorted({mutant.crate for mutant in chosen}):
        if subprocess.run(CHECK, cwd=scratch / "crates" / crate).returncode != 0:
            sys.exit("not proved without an edit")
    results, start = [], time.time()
    for number, mutant in enumerate(chosen, 1):
        if time.time() - start > 60 * minutes:
            break
        found, reason, seconds, text = try_edit(scratch, mutant, limit)
        results.append((mutant, found))
        (scratch / "mutants" / f"{number:03}").write_text(f"{diff(mutant)}\n\n{text}")
        print(f"{number:3} {found:8} {seconds:5.1f} s  {mutant.kind:9} {mutant.path}:{mutant.start + 1} {mutant.function}"
              f"  {reason.replace(str(scratch), '')[:160]}", flush=True)
    return results


def table(head, rows, columns, counts):
    print(f"\n| {head} | " + " | ".join(columns) + " | all |\n|---|" + "---:|" * (len(columns) + 1))
    for row in rows:
        numbers = [counts[row, column] for column in columns]
        print(f"| {row} | " + " | ".join(map(str, [*numbers, sum(numbers)])) + " |")
    totals = [sum(counts[row, column] for row in rows) for column in columns]
    print("| all | " + " | ".join(map(str, [*totals, sum(totals)])) + " |")


def tell(results):
    for mutant, found in results:
        if found in ("accepted", "none"):
            print(f"\n{found}\n{diff(mutant)}")
    table("kind", KINDS, VERDICTS, collections.Counter((mutant.kind, found) for mutant, found in results))
    crates = sorted({mutant.crate for mutant, _ in results})
    table("crate", crates, VERDICTS, collections.Counter((mutant.crate, found) for mutant, found in results))


def arguments():
    parser = argparse.ArgumentParser(description=__doc__, formatter_class=argparse.RawDescriptionHelpFormatter, allow_abbrev=False)
    parser.add_argument("--count", type=number(1, 100_000), default=150)
    parser.add_argument("--seed", type=number(0, 2**63), default=1)
    parser.add_argument("--crate", choices=sorted(folder.name for folder in (ROOT / "crates").iterdir()))
    parser.add_argument("--automatic", action="store_true")
    parser.add_argument("--scratch", type=pathlib.Path)
    parser.add_argument("--minutes", type=number(0.1, 10_080, float), default=45)
    parser.add_argument("--limit", type=number(1, 86_400), default=300)
    parser.add_argument("--list", action="store_true")
    options = parser.parse_args()
    if options.scratch and not ours(options.scratch, MADE_HERE):
        parser.error("--scratch is new or was made here")
    return options, parser


def main():
    options, parser = arguments()
    found = [mutant for mutant in mutants(ROOT) if options.crate in (None, mutant.crate)]
    if options.automatic:
        found = [mutant for mutant in found if (mutant.crate, mutant.function) not in by_hand()]
    if not found:
        parser.error("there are no such edits")
    if options.list:
        crates = sorted({mutant.crate for mutant in found})
        return table("crate", crates, list(KINDS), collections.Counter((mutant.crate, mutant.kind) for mutant in found))
    with tempfile.TemporaryDirectory() as room:
        scratch = (options.scratch or pathlib.Path(room)).resolve()
        prepare(scratch)
        tell(run(scratch, sample(found, options.count, options.seed), options.limit, options.minutes))


if __name__ == "__main__":
    main()
