#!/usr/bin/env python3
"""Small edits to the definition, one at a time, and what notices each. Not part of the gate; docs/runs/MUTATIONS.md has the figures.

usage: definition.py [--count N --seed S] [--file NAME] [--definition NAME..] [--again LOG..] [--quick] [--scratch DIR] [--minutes M]
       definition.py --list             counts all edits, by file and kind

Edits crates/definition/specs in a copy (DIR, which is new or was made here; else a temporary one). Without --count all edits are tried, in the
files' order; with it N of them, one of every definition and kind in turn, in an order that S fixes. --file takes those of one file, --definition those of some definitions.
--again counts as there what the outputs LOG of earlier runs have as no type or answers, and does not try it again. --quick leaves out
two thirds of the recorded answers, the costly ones. M ends the run. What notices an edit, in the order in which it is asked:
  no type   the definition no longer checks
  answers   a recorded answer, computed from the definition, is another: of the guards and some that show every rule, code and form
  cases     a computed theorem of crates/laws/proofs/Cases.antt fails
  answers   one of the other recorded answers is another
  laws      a proof of crates laws or alike is refused: it may be so for its form alone
  survives  nothing notices it
  slow      the prover takes 20 times what it takes without an edit, or more than 6 GB
  none      the prover gave no verdict
"""
import argparse
import collections
import os
import pathlib
import random
import re
import shutil
import signal
import subprocess
import sys
import tempfile
import time

from definition_edits import KINDS, edits
from run import CHECK, forget, table

ROOT = pathlib.Path(__file__).resolve().parents[3]
sys.path[:0] = [str(ROOT / "tests"), str(ROOT / "tests/recorded")]
from computed import HEAD, OUT, theorem  # noqa: E402
from shared.recorded import ANSWERS, GUARDS, LETTERS, QUESTIONS, of  # noqa: E402
from shared.script import number, ours, text  # noqa: E402

SPECS = ROOT / "crates/definition/specs"
VERDICTS = ["no type", "answers", "cases", "laws", "survives", "slow", "none"]
ERROR = re.compile(r"/(specs|proofs)/(\w+)\.antt:\d+:\d+: error: `([^`]+)`")
MOST_KB = 6_000_000
# what a folder has that was made here
MADE_HERE = ".made-by-mutations-definition.py"


# ---- The recorded answers, in blocks: the first is small and shows most of what there is

def cost(line):
    return len(line.question.split()) + len(line.report.split()) + int(line.numbers.split()[3]) // 4


def features(line):
    """What a recorded answer shows: kind, mode and code; each code that may begin an item; the rules of its tree."""
    words, report = line.question.split(), list(map(int, line.report.split()))
    code = line.numbers.split()[0]
    shown = {("code", code), ("kind", *words[:1], code == "0"), ("mode", *words[1:2])}
    shown |= {("word", word) for word in words[2:] if int(word) < 40 and int(code) not in (4, 5)}
    if code == "0":
        place = report[0] + 1
        place += report[place] + 2
        while place < len(report):
            shown.add(("rule", report[place], words[1]))
            place += 3
            for _ in range(5):
                place += report[place] + 1
    return shown


def blocks(lines):
    """Guards and a cover of all features first; the rest by what they cost, in a small and a large block."""
    guards, shown, first = [line for line in lines if line.guard], collections.Counter(), []
    rest = sorted((line for line in lines if not line.guard), key=lambda line: (line.cost, line.number))
    for line in rest:
        if line.cost < 400 and any(shown[feature] < 1 for feature in line.features):
            first.append(line)
            shown.update(line.features)
    rest = [line for line in rest if line not in first]
    return guards + first, rest[:900], rest[900:]


class Line:
    """A recorded answer with its number among all."""

    def __init__(self, number, line, guard):
        self.number, self.line, self.guard = number, line, guard
        self.cost, self.features = cost(line), features(line)


def recorded():
    guards = dict.fromkeys(of(GUARDS))
    every = dict.fromkeys([*guards, *of(LETTERS), *of(ANSWERS), *of(QUESTIONS)])
    return [Line(number, line, line in guards) for number, line in enumerate(every, 1)]


# ---- Asking the prover

def ask(folder, limit):
    """The status of `rt check` in a crate's folder (None past the limit), its text, the seconds."""
    start, log = time.time(), folder / "said"
    with log.open("w") as out:
        child = subprocess.Popen(CHECK, cwd=folder, stdout=out, stderr=subprocess.STDOUT, start_new_session=True)
        while child.poll() is None:
            try:
                child.wait(timeout=0.5)
            except subprocess.TimeoutExpired:
                if time.time() - start > limit or held(child.pid) > MOST_KB:
                    os.killpg(child.pid, signal.SIGKILL)
                    child.wait()
                    return None, log.read_text(), time.time() - start
    return child.returncode, log.read_text(), time.time() - start


def held(session):
    """What the processes of a session hold in memory, in KB: rt is one, the prover another."""
    pages = 0
    for file in pathlib.Path("/proc").glob("[0-9]*/stat"):
        try:
            fields = file.read_text().rpartition(")")[2].split()
        except OSError:
            continue
        pages += int(fields[21]) if int(fields[3]) == session else 0
    return pages * os.sysconf("SC_PAGE_SIZE") // 1024


class Judges:
    """A crate with the definition and what is computed from it, and a repository with the definition and its laws."""

    def __init__(self, scratch, texts, parts):
        self.texts, self.parts = texts, [list(part) for part in parts]
        self.by_name = {f"answer{line.number}": line for part in parts for line in part}
        self.computed, self.laws = scratch / "computed/crates/definition", scratch / "laws/crates"
        self.prepare(scratch)
        self.cases = (ROOT / "crates/laws/proofs/Cases.antt").read_text()
        self.reached = self.used_by("Reply")
        for module in texts:
            self.put(module, texts[module])
        self.stages = [0, "cases", *range(1, len(parts)), "laws"]
        self.limits = {stage: 20 * self.baseline(stage) for stage in self.stages}

    def prepare(self, scratch):
        shutil.rmtree(scratch / "computed", ignore_errors=True)
        shutil.rmtree(scratch / "laws", ignore_errors=True)
        for part in ("src", "specs"):
            shutil.copytree(ROOT / "crates/definition" / part, self.computed / part)
        for crate in ("definition", "laws", "alike"):
            shutil.copytree(ROOT / "crates" / crate, self.laws / crate, ignore=OUT)
        (scratch / "computed/crates.txt").write_text("definition:\n")
        (scratch / "laws/crates.txt").write_text("definition:\nlaws: definition\nalike: definition laws\n")
        (self.computed / "proofs").mkdir()
        (self.computed / "proofs/Lib.antt").write_text("pub mod Computed\n")

    def used_by(self, module):
        used = set(re.findall(r"^use Rattle\.definition\.specs\.(\w+)", self.texts[module], re.MULTILINE))
        return {module}.union(*map(self.used_by, used))

    def put(self, module, text):
        for folder in (self.computed, self.laws / "definition"):
            (folder / "specs" / f"{module}.antt").write_text(text)

    def baseline(self, stage):
        """The seconds that a judge takes from nothing without an edit, which must pass."""
        forget(self.computed)
        status, text, seconds = self.ask(stage, 600)
        if status != 0:
            sys.exit(f"{text[-3000:]}\nnot proved without an edit")
        return seconds

    def ask(self, stage, limit):
        """The prover on one stage. What it kept of earlier runs it takes in the first alone; that is asked again with the second."""
        if stage == "laws":
            return self.ask_laws(limit)
        if stage != 0:
            forget(self.computed)
        lines = [] if stage == "cases" else self.parts[stage] + (self.parts[0] if stage == 1 else [])
        text = HEAD.format(first=1, last=len(lines)) + "".join(theorem(line.number, line.line) for line in lines) if lines else self.cases
        # what is computed stands in the definition's own crate
        (self.computed / "proofs/Computed.antt").write_text(text)
        return ask(self.computed, limit)

    def ask_laws(self, limit):
        """Crate laws, and where it is proved, alike."""
        seconds = 0
        for crate in ("laws", "alike"):
            forget(self.laws / crate)
            status, text, more = ask(self.laws / crate, limit - seconds)
            seconds += more
            if status != 0:
                break
        return status, text, seconds

    def judge(self, edit):
        """The verdict, and what decided."""
        self.put(edit.path, edit.apply(self.texts[edit.path]))
        try:
            for stage in self.stages if edit.path in self.reached else ["cases", "laws"]:
                found = self.verdict(stage)
                if found:
                    return found
            return "survives", ""
        finally:
            self.put(edit.path, self.texts[edit.path])

    def verdict(self, stage):
        """None where the stage passes."""
        status, text, _ = self.ask(stage, self.limits[stage])
        errors = ERROR.findall(text)
        if status == 0 and "logic=proved" in text:
            return None
        if status is None or not errors:
            return ("slow", f"stage {stage}") if status is None else ("none", text.splitlines()[-1])
        if stage == "laws":
            return "laws", f"{errors[0][1]} {errors[0][2]}"
        if any(part == "specs" for part, _, _ in errors):
            return "no type", errors[0][2]
        return ("cases", errors[0][2]) if stage == "cases" else ("answers", self.shortest([name for _, _, name in errors]))

    def shortest(self, names):
        """The cheapest of some answers."""
        line = min((self.by_name[name] for name in names), key=lambda line: (line.cost, line.number))
        return f"{line.line.sizes} | {line.line.question}"[:100]


# ---- All

def sample(found, count, seed):
    """One edit of each definition and kind in turn, in a random order."""
    dice, strata = random.Random(seed), collections.defaultdict(list)
    for edit in found:
        strata[edit.path, edit.definition, edit.kind].append(edit)
    for members in strata.values():
        dice.shuffle(members)
    chosen = []
    while len(chosen) < count and any(strata.values()):
        keys = [key for key in strata if strata[key]]
        dice.shuffle(keys)
        chosen += [strata[key].pop() for key in keys[:count - len(chosen)]]
    return chosen


def place(text, at, first):
    """Line and column of a place, the line counted from that of another."""
    return f"{text.count(chr(10), first, at) + 1}:{at - text.rfind(chr(10), 0, at)}"


def described(edit, text, first):
    """The edit in one line: where in its definition, whose first clause is at `first`, and what becomes what."""
    (start, end, new), *more = edit.spans
    said = f"{text[start:end]} <=> {new} at {place(text, more[0][0], first)}" if more else f"{text[start:end]} => {new.strip() or 'nothing'}"
    return f"{edit.kind:9} {edit.path}.{edit.definition} {place(text, start, first)} " + re.sub(r"\s+", " ", said)


def names(found, texts):
    """Each edit's line. Lines count from the definition's first edit, so that a comment elsewhere changes none."""
    first = {}
    for edit in found:
        first.setdefault((edit.path, edit.definition), min(start for start, _, _ in edit.spans))
    return {edit: described(edit, texts[edit.path], first[edit.path, edit.definition]) for edit in found}


def run(judges, chosen, said, minutes):
    results, start = [], time.time()
    for number, edit in enumerate(chosen, 1):
        if time.time() - start > 60 * minutes:
            print(f"ended after {minutes} minutes: {number - 1} of {len(chosen)}")
            break
        began = time.time()
        found, reason = judges.judge(edit)
        results.append((edit, found))
        print(f"{number:4} {found:8} {time.time() - began:5.1f} s  {said[edit]}  [{reason}]", flush=True)
    return results


def tell(results, said):
    for wanted in ("laws", "survives", "slow", "none"):
        some = [edit for edit, found in results if found == wanted]
        if some:
            print(f"\n{wanted}:\n" + "\n".join(said[edit] for edit in some))
    table("kind", KINDS, VERDICTS, collections.Counter((edit.kind, found) for edit, found in results))
    files = list(dict.fromkeys(edit.path for edit, _ in results))
    table("file", files, VERDICTS, collections.Counter((edit.path, found) for edit, found in results))


def earlier(logs, said):
    """What earlier outputs have as no type or answers: more answers change neither."""
    line = re.compile(r"^ *\d+ (no type|answers) +[\d.]+ s  (.*?)  \[.*\]$", re.MULTILINE)
    noticed = {match[2]: match[1] for log in logs for match in line.finditer(log)}
    return [(edit, noticed[said[edit]]) for edit in said if said[edit] in noticed]


def options():
    parser = argparse.ArgumentParser(description=__doc__, formatter_class=argparse.RawDescriptionHelpFormatter, allow_abbrev=False)
    parser.add_argument("--count", type=number(1, 100_000))
    parser.add_argument("--seed", type=number(0, 2**63), default=1)
    parser.add_argument("--file", choices=sorted(file.stem for file in SPECS.glob("*.antt")))
    parser.add_argument("--definition", nargs="+")
    parser.add_argument("--again", type=pathlib.Path, nargs="+", default=[])
    parser.add_argument("--quick", action="store_true")
    parser.add_argument("--scratch", type=pathlib.Path)
    parser.add_argument("--minutes", type=number(0.1, 10_080, float), default=600)
    parser.add_argument("--list", action="store_true")
    given = parser.parse_args()
    if not all(log.is_file() for log in given.again) or given.scratch and not ours(given.scratch, MADE_HERE):
        parser.error("--again has files, --scratch is new or was made here")
    given.again = [text(log, "definition.py --again LOG..") for log in given.again]
    return given


def main():
    given = options()
    texts, found = edits(SPECS)
    said = names(found, texts)
    found = [edit for edit in found if given.file in (None, edit.path) and (not given.definition or edit.definition in given.definition)]
    if not found:
        sys.exit("definition.py: no edit of these")
    if given.list:
        return table("file", list(texts), KINDS, collections.Counter((edit.path, edit.kind) for edit in found))
    before = [(edit, verdict) for edit, verdict in earlier(given.again, said) if edit in set(found)]
    found = [edit for edit in found if edit not in dict(before)]
    chosen = sample(found, given.count, given.seed) if given.count else found
    parts = blocks(recorded())
    with tempfile.TemporaryDirectory() as room:
        scratch = (given.scratch or pathlib.Path(room)).resolve()
        scratch.mkdir(parents=True, exist_ok=True)
        (scratch / MADE_HERE).touch()
        judges = Judges(scratch, texts, parts[:2] if given.quick else parts)
        tell(before + run(judges, chosen, said, given.minutes), said)


if __name__ == "__main__":
    main()
