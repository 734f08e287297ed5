#!/usr/bin/env python3
"""Shows that mutants.py gives each edit the right verdict, and that no edit spoils another's.

usage: mutants_test.py [--kept | --as-built]

The edits tests/mutation_cases/NAME/*.edit are edits of the crate NAME, with a line `wants:`, the beginning of the verdict:
REFUSED, NOT REFUSED (harmless ones) or BAD EDIT and why (those that cannot be read, that change a contract, that do not
compile, whose proof file names what they remove). All of a crate are judged together. Prints a line for each edit with another
verdict, and last `N passed, N failed`.
"""
import os
import re
import sys
import tempfile

sys.dont_write_bytecode = True
import mutants
from kit import load_rt
from mutation.copies import proved_in
from mutation.edits import Edit, read
from mutation.libraries import Libraries
from mutation.trials import Trial

EDITS = os.path.join(os.path.dirname(os.path.realpath(__file__)), "mutation_cases")


def try_crate(rt, crate, as_built):
    """Returns how many of the crate's edits got the verdict that they want, and how many another."""
    at = f"{EDITS}/{crate.name}"
    files = [f"{at}/{it}" for it in sorted(os.listdir(at))]
    edits = [Edit(crate.folder, it) for it in files]
    with tempfile.TemporaryDirectory(prefix="mutants-test-") as kept:
        Trial(rt.rtlib, crate, kept, proved_in(crate) if as_built else []).judge(edits)
    failed = 0
    for edit, file in zip(edits, files):
        wanted = re.search(r"(?m)^wants: (.*)$", read(file))[1]
        got = "REFUSED" if edit.verdict.is_refused else edit.verdict.text
        if not got.startswith(wanted):
            failed += 1
            print(f"{crate.name}/{edit.name}: wants {wanted}, and got {edit.verdict.text}", flush=True)
    return len(edits) - failed, failed


def main(words):
    rt = load_rt()
    rt.rtlib.guarded()
    words = mutants.arguments_of(words)
    crates = [it for it in rt.rtlib.crates_below(os.getcwd()) if os.path.isdir(f"{EDITS}/{it.name}")]
    if not mutants.build_below(crates, words, Libraries(rt, os.getcwd(), crates)):
        return 1
    given = rt.in_lanes({(it.name, "edits"): ([], 1, rt.need(it), lambda _, jobs, it=it: try_crate(rt, it, words.as_built)) for it in crates})
    passed, failed = (sum(it[at] for it in given.values()) for at in range(2))
    print(f"{passed} passed, {failed} failed")
    return 1 if failed or not passed else 0


if __name__ == "__main__":
    sys.exit(main(sys.argv[1:]))
