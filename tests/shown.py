"""Looks at the lines `shows:` of mutants: an input on which the mutant changes what a user sees."""
import os
import re

from mutation.edits import read

TESTS = os.path.dirname(os.path.realpath(__file__))
# The mutants that were kept before such a line was asked for. It only gets shorter.
UNSHOWN = os.path.join(TESTS, "unshown.txt")


def unshown():
    """Returns the names CRATE/MUTANT of the mutants that may lack a line `shows:`."""
    return {line.strip() for line in read(UNSHOWN).split("\n") if line.strip() and not line.startswith("#")}


def fault_of(name, edit, allowed, root):
    """Returns what is wrong with a mutant's lines `shows:`, or None."""
    if not edit.shows:
        return None if name in allowed else "it names no input that shows it: add a line `shows: row NAME`, `shows: test CRATE::NAME` or `shows: ` and a sentence"
    if name in allowed:
        return "it has a line `shows:`: remove it from tests/unshown.txt"
    for it in edit.shows:
        kind, _, rest = it.partition(" ")
        if kind == "row" and not os.path.isdir(os.path.join(root, "tests", "rows", rest)):
            return f"there is no row {rest}"
        if kind == "test" and not has_test(root, rest):
            return f"there is no test {rest}"
    return None


def has_test(root, name):
    """Returns whether a crate has a test of this name, given as CRATE::FUNCTION."""
    crate, _, function = name.partition("::")
    folder = os.path.join(root, "crates", crate, "src")
    files = (os.path.join(at, it) for at, _, names in os.walk(folder) for it in names)
    return any(re.search(rf"\bfn {re.escape(function)}\b", read(it)) for it in files)


def faults_of(crate, edits, root=os.path.dirname(TESTS)):
    """Returns what is wrong with the lines `shows:` of a crate's mutants, by the mutants' names."""
    allowed = unshown()
    faults = {it.name: fault_of(f"{crate}/{it.name}", it, allowed, root) for it in edits}
    return {name: why for name, why in faults.items() if why}
