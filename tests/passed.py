#!/usr/bin/env python3
"""Notes commits that the gate passed on this machine, and says which crates changed since the last of them.

usage: passed.py --note | --changed

--note keeps the present commit, if nothing in the checkout differs from it. --changed prints the names of the crates whose sources,
definitions or proofs differ from the newest kept commit among the present one's ancestors, in one line, or of all crates if
there is no such commit.
"""
import argparse
import os
import sys

sys.dont_write_bytecode = True
from gate import kit_folder
import program
from mutation.store import Store, digest, store_folder

PARTS = ("src", "specs", "proofs")


def git(*arguments):
    ran = program.run(["git", *arguments], stderr=program.NOWHERE, text=True)
    return ran.stdout if ran.returncode == 0 else ""


def changed_since(commit):
    """Returns the crates with files that differ from a commit, committed or not."""
    files = git("diff", "--name-only", commit).split("\n") + git("ls-files", "--others", "--exclude-standard").split("\n")
    rows = (it.split("/") for it in files)
    return sorted({it[1] for it in rows if len(it) > 3 and it[0] == "crates" and it[2] in PARTS})


def main(arguments):
    parser = argparse.ArgumentParser(usage=__doc__.split("usage: ")[1].split("\n")[0])
    parser.add_argument("--note", action="store_true")
    parser.add_argument("--changed", action="store_true")
    given = parser.parse_args(arguments)
    store = Store(store_folder(kit_folder()), "passed")
    if given.note and not git("status", "--porcelain", "--untracked-files=no"):
        head = git("rev-parse", "HEAD").strip()
        store.put(digest(head), head)
    if given.changed:
        ancestors = git("rev-list", "--max-count=1000", "HEAD").split()
        passed = next((it for it in ancestors if store.get(digest(it))), None)
        print(" ".join(changed_since(passed) if passed else sorted(os.listdir("crates"))))
    return 0


if __name__ == "__main__":
    sys.exit(main(sys.argv[1:]))
