#!/usr/bin/env python3
"""The questions of docs/DIFFERENCES.md, through the desk program; and the page held to them.

usage: run.py            asks the desk program every question of questions.txt that its sizes do not change, holds its reply to the
                         recorded one, and holds the page's blocks to questions.txt and to the paper's rules (paper.py);
                         the last line is 'N passed, M failed': blocks of the page and replies of the desk
       run.py --blocks   prints the blocks as the page must have them
"""
import itertools
import pathlib
import re
import sys

HERE = pathlib.Path(__file__).resolve().parent
sys.path.insert(0, str(HERE.parent))
from notation import Notation  # noqa: E402
from paper import derived  # noqa: E402
from shared.desk import SIZES, ask, same_at_the_desk  # noqa: E402
from shared.programs import program  # noqa: E402
from shared.recorded import QUESTIONS, recorded  # noqa: E402
from shared.script import refuse, verdict  # noqa: E402

PAGE = HERE.parent.parent / "docs/DIFFERENCES.md"
# words past which a question is not written as a formula
MOST_WORDS = 100
# words of a report past which part S leaves out its tree
MOST_REPORT = 30


def parts_of(text, heading):
    """For each heading with an entry's id, the id and the text below it."""
    parts = re.split(heading, text, flags=re.MULTILINE)
    return list(zip(parts[1::2], parts[2::2]))


def sections():
    return parts_of(QUESTIONS.read_text(), r"^# ([RPS]\d+)$")


def entries():
    """For each entry of the page its id and the recorded lines below it."""
    return [(name, list(recorded(text.splitlines()))) for name, text in sections()]


def notations():
    """For each entry of the page how its names are spelt: '# variables 0 open ..' and '# types 0 Open ..', else document 01's names."""
    for name, text in sections():
        listed = {kind: line.split() for kind, line in re.findall(r"^# (variables|types) (.*)$", text, flags=re.MULTILINE)}
        yield name, Notation(**{kind: dict(zip(map(int, words[::2]), words[1::2])) for kind, words in listed.items()})


def short(words):
    """Words as text; ten or more equal ones in a row as word*count."""
    runs = [(word, len(list(run))) for word, run in itertools.groupby(words.split())]
    return " ".join(f"{word}*{count}" if count >= 10 else " ".join([word] * count) for word, count in runs)


def without_tree(report):
    """An accepted report's words up to its tree's count."""
    words = report.split()
    context = 1 + int(words[0])
    tree = context + 1 + int(words[context])
    return " ".join([*words[:tree + 1], ".."])


def shown(name, line):
    accepted = line.numbers.split()[0] == "0"
    return without_tree(line.report) if name.startswith("S") and accepted and len(line.report.split()) > MOST_REPORT else line.report


def block(name, line, notation):
    """A question's block on the page."""
    words = [int(word) for word in line.question.split()]
    numbers = [int(word) for word in line.numbers.split()]
    lines = [] if line.sizes == SIZES else [f"sizes    {line.sizes}"]
    lines.append(f"question {short(line.question)}".rstrip())
    if numbers[0] not in (3, 4, 5) and len(words) <= MOST_WORDS:
        lines.append(f"         {notation.question(words)}")
    lines.append(f"reply    {line.numbers}")
    lines += [f"report   {shown(name, line)}"] * bool(line.report)
    lines.append(f"         {notation.reply(numbers, map(int, line.report.split()))}")
    lines += [f"paper    {notation.outcome(derived(words))}"] if name.startswith("P") else []
    return "\n".join(lines)


def page_blocks():
    """For each entry of the page its id and its blocks."""
    found = parts_of(PAGE.read_text(), r"^### ([RPS]\d+)\. ")
    return {name: re.findall(r"^```\n(.*?)\n```$", text, flags=re.MULTILINE | re.DOTALL) for name, text in found}


def page_faults(wanted):
    """For each question of an entry whether the page has its block in its place; one more for each block or entry too many."""
    found = page_blocks()
    yield from (f"{name}: not both on the page and in questions.txt" for name in sorted(found.keys() ^ wanted.keys()))
    for name in [*wanted, *sorted(found.keys() - wanted.keys())]:
        for has, must in itertools.zip_longest(found.get(name, []), wanted.get(name, [])):
            yield has != must and f"{name}: the page's blocks are not those of questions.txt (run.py --blocks prints these)"


def desk_faults(lines):
    """For each question whether the desk program replies otherwise."""
    for line in lines:
        said = ask([int(word) for word in line.question.split()])
        yield said != f"{line.numbers}\n{line.report}\n" and f"differs at the desk: {line.question[:400]}"


def main():
    if sys.argv[1:] not in ([], ["--blocks"]):
        refuse("run.py [--blocks]")
    listed, notation = entries(), dict(notations())
    wanted = {name: [block(name, line, notation[name]) for line in lines] for name, lines in listed}
    if sys.argv[1:]:
        for name, blocks in wanted.items():
            print(name, *(f"```\n{text}\n```" for text in blocks), sep="\n\n", end="\n\n")
        return
    program("desk")
    lines = [line for _, all_lines in listed for line in all_lines]
    asked = [line for line in lines if same_at_the_desk(line)]
    held = [*page_faults(wanted), *desk_faults(asked)]
    faults = [fault for fault in held if fault]
    print(*dict.fromkeys(faults), sep="\n", end="\n" if faults else "")
    print(f"differences: {len(wanted)} entries, {len(lines)} questions, {len(asked)} asked at the desk, "
          f"{len(lines) - len(asked)} left out (other sizes decide their reply), {len(faults)} faults")
    verdict(len(held) - len(faults), len(faults))


if __name__ == "__main__":
    main()
