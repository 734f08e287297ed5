#!/usr/bin/env python3
"""memory_refusals.py: holds the sources against the list of all places that say that memory ran out.

No contract can say when a growth is refused, so `memory 900` could be answered anywhere without a proof that notices. This
script makes it a rule of the code: the number 900 occurs in one file; each place in crates/*/src that makes a refusal or an error
of it is listed in memory_refusals.txt, with the function that it stands in and the reason; and no row of rows/ expects it, where
no growth is refused. Crates of tests are left out. Run at the top of the repository. Prints what differs, and a last line with
the number of places; the exit status is 1 if anything differs.
"""
import os
import re
import sys
from collections import Counter

LIST, NUMBERS, ROWS = "tests/memory_refusals.txt", "crates/fx_base/src/refusals.rt", "tests/rows"
# What makes the refusal or the error, and does not compare with it or match it.
MADE = re.compile(
    r"(?:bare\(|number: |=> )refusals::WANT_OF_MEMORY\b|\(AllocError\)|\bStreamFault::OutOfMemory\b(?! *=>)|^ *refusals::WANT_OF_MEMORY,$"
)
LITERAL = re.compile(r"(?<![\w.,])900(?![\w.,])")
FUNCTION = re.compile(r"^ *(?:pub(?:\([a-z]+\))? +)?(?:const +)?fn +(\w+)")
STATIC = re.compile(r"^(?:pub(?:\([a-z]+\))? +)?(?:const|static) +(\w+)")


def code_of(text):
    """Returns the text without its comments and quoted texts, with as many lines."""
    kept = re.sub(r'//[^\n]*|b?"(?:[^"\\]|\\.)*"', lambda it: "\n" * it[0].count("\n"), text, flags=re.DOTALL)
    return kept.split("\n")


def sources():
    """Returns the files of all crates but those of tests, in order."""
    found = []
    for crate in sorted(os.listdir("crates")):
        if not crate.startswith("fx_tests_"):
            for at, folders, names in os.walk(f"crates/{crate}/src"):
                folders.sort()
                found += [f"{at}/{name}" for name in sorted(names) if name.endswith(".rt")]
    return found


def places_in(text):
    """Returns the functions or constants in which the text makes the refusal, one for each line, and the lines that write 900."""
    made, literal, inside = [], [], "(top)"
    for number, line in enumerate(code_of(text), 1):
        found = FUNCTION.match(line) or STATIC.match(line)
        inside = found[1] if found else inside
        if MADE.search(line):
            made.append(inside)
        if LITERAL.search(line) and not line.lstrip().startswith(("ensures", "requires", "ghost")):
            literal.append(number)
    return made, literal


def listed(text):
    """Returns the places of the list, as pairs of file and function, and the lines that have no reason."""
    found, faults = Counter(), []
    for number, line in enumerate(text.split("\n"), 1):
        if not line or line.startswith("#"):
            continue
        place, _, reason = line.partition(":")
        file, _, function = place.partition(" ")
        if function and reason.strip():
            found[file, function] += 1
        else:
            faults.append(f"{LIST}:{number}: write FILE FUNCTION: REASON")
    return found, faults


def rows_that_expect_it():
    """Returns the rows whose expected output says that memory ran out."""
    found = []
    for row in sorted(os.listdir(ROWS)):
        path = f"{ROWS}/{row}/stdout"
        if os.path.isfile(path):
            with open(path, "rb") as file:
                if b"memory 900" in file.read():
                    found.append(f"{path}: it expects `memory 900`, though no growth is refused in a row")
    return found


def read(path):
    with open(path, encoding="utf-8") as file:
        return file.read()


def faults_of(texts, list_text):
    """Returns what differs between sources, by their paths, and the list, and how many places there are."""
    wanted, faults = listed(list_text)
    found = Counter()
    for path, text in texts.items():
        made, literal = places_in(text)
        found.update((path, inside) for inside in made)
        if path != NUMBERS:
            faults += [f"{path}:{number}: it writes 900: name refusals::WANT_OF_MEMORY" for number in literal]
    for place, count in sorted((found - wanted).items()):
        faults.append(f"{place[0]}: fn {place[1]} says that memory ran out at {count} place(s) more than {LIST} lists")
    for place, count in sorted((wanted - found).items()):
        faults.append(f"{LIST}: {place[0]} {place[1]} is listed {count} time(s) more than it stands there")
    return faults, found.total()


def main():
    faults, count = faults_of({path: read(path) for path in sources()}, read(LIST))
    faults += rows_that_expect_it()
    for fault in faults:
        print(fault)
    print(f"memory refusals: {count} places, {len(faults)} faults")
    return 1 if faults or not count else 0


if __name__ == "__main__":
    sys.exit(main())
