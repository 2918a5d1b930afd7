"""Proof files of functions, read: the answers to their goals, the invariants and measures of their loops and cycles."""
import re

# the files that a function's folder below proofs/ has, and where a cycle's answers stand apart
NAMES = {"Answers.antt", "Invariants.antt", "Proof.antt"}
# a declaration's name; of a record or data its parameters follow
NAME = re.compile(r"^ *(?:unfoldable |abbrev )*(?:pub )?(?:(?:record|data) ([^\s(){}→]+)|([^\s(){}→]+) :(?= |$))", re.MULTILINE)


def proof_files(folder):
    """The proof files of functions below crates/ or one crate."""
    return sorted(file for file in folder.glob("**/proofs/**/*.antt")
                  if (file.name in NAMES or file.parent.name == "Proof") and "out" not in file.relative_to(folder).parts)


def declared(text):
    """The names that a text declares."""
    return [first or second for first, second in NAME.findall(text)]


def needs(file):
    """The names of a function's goals, from the Goals module that `rt check --generated` wrote."""
    return re.findall(r"^ *(?:abbrev )?pub ([^\s(){}→:]+) :", file.read_text(encoding="utf-8"), re.MULTILINE)
