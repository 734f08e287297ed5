#!/usr/bin/env python3
"""Shows mutants by rows: which row of tests/rows prints something else, or ends with another status, with a mutant.

usage: show_mutants.py [--write] [--most N] [--jobs N] [--program FILE] [NAME[/WORD]..]

Run at the top of the repository. One program is built, without a proof, that has all mutants of functions: the environment variable
ONCE_MUTANT says which one is on, and ONCE_REACHED names a file for the numbers of those whose functions are called. A mutant with a
line `shows: row NAME` must change what that row prints or its status. With --write each mutant without a line `shows:` is run over
the rows that reach it, at most N of them (60), and gets a line for the first that it changes. Mutants of constants and of
functions for constants are left out. Prints a line for each mutant that its row does not show, and last `N passed, M failed`.
"""
import argparse
import os
import re
import shutil
import sys
import tempfile
from concurrent.futures import ThreadPoolExecutor

sys.dont_write_bytecode = True
HERE = os.path.dirname(os.path.realpath(__file__))
TOP = os.path.dirname(HERE)
import rows
import unproved
from mutation.edits import IN_PLACE, TWIN, Edit, read
from program import DidNotEnd, succeed

SWITCH = "fx_mutant_switch"
LIBRARY = """\
//! Which mutant is on.
#![tactic(auto)]

unsafe extern "C" {
    safe fn once_mutant(number: u32) -> u32;
}

/// Returns whether the mutant of this number is on.
pub fn is_on(number: u32) -> bool {
    once_mutant(number) != 0
}
"""
CODE = """\
#include <stdio.h>
#include <stdlib.h>

static unsigned char reached[65536];
static int chosen = -1;
static const char *file;

static void write_reached(void)
{
    FILE *out = fopen(file, "w");
    for (unsigned number = 0; out && number < sizeof reached; number++)
        if (reached[number])
            fprintf(out, "%u\\n", number);
    if (out)
        fclose(out);
}

unsigned once_mutant(unsigned number)
{
    if (chosen < 0) {
        const char *text = getenv("ONCE_MUTANT");
        chosen = text ? atoi(text) : 0;
        file = getenv("ONCE_REACHED");
        if (file)
            atexit(write_reached);
    }
    reached[number % sizeof reached] = 1;
    return number == (unsigned)chosen;
}
"""
ERROR = re.compile(r"(?m)^(?:\./|/\S*/)?(?:crates/(\w+)/)?(src/\S+\.rt):(\d+):\d+: error")


class Mutant:
    """A mutant of a crate: its number in the program, its edit and the edit's file."""

    def __init__(self, number, crate, file):
        self.number, self.crate, self.file = number, crate, file
        self.edit = Edit(f"{TOP}/crates/{crate}", file)
        self.name = f"{crate}/{os.path.basename(file)}"

    def can_be_switched(self):
        """Returns whether the mutant can be a branch of its functions."""
        heads = (read(f"{TOP}/crates/{self.crate}/{it.path}")[it.function.start : it.function.opens] for it in self.edit.parts)
        return self.edit.kind in (TWIN, IN_PLACE) and not any(re.search(r"\bconst\s+(unsafe\s+)?fn\b", it) for it in heads)


def all_mutants():
    """Returns all mutants of the repository, numbered from 1."""
    found = []
    for crate in sorted(os.listdir(f"{TOP}/crates")):
        folder = f"{TOP}/crates/{crate}/mutants"
        for file in sorted(os.listdir(folder)) if os.path.isdir(folder) else []:
            if file.endswith(".edit"):
                found.append(Mutant(len(found) + 1, crate, f"{folder}/{file}"))
    return found


def write_switched(room, mutants):
    """Writes a copy of the repository's sources in which each mutant is a branch of its functions."""
    for name in ("crates.txt", "HANDLES"):
        shutil.copy(f"{TOP}/{name}", room)
    leave = shutil.ignore_patterns("out", "mutants", "__pycache__")
    shutil.copytree(f"{TOP}/crates", f"{room}/crates", ignore=leave)
    succeed(["git", "init", "-q", room])
    os.makedirs(f"{room}/crates/{SWITCH}/c")
    for part in ("src", "specs", "proofs"):
        os.makedirs(f"{room}/crates/{SWITCH}/{part}")
    texts = {"src/lib.rt": LIBRARY, "specs/Lib.antt": "", "proofs/Lib.antt": "", "c/switch.c": CODE}
    for path, text in texts.items():
        with open(f"{room}/crates/{SWITCH}/{path}", "w", encoding="utf-8") as file:
            file.write(text)
    with open(f"{room}/crates.txt", "r+", encoding="utf-8") as file:
        lines = [re.sub(r"^(\w+:)", rf"\1 {SWITCH}", line) for line in file.read().split("\n")]
        file.seek(0)
        file.write("\n".join([f"{SWITCH}:", *lines]))
    functions = {}
    for mutant in mutants:
        for part in mutant.edit.parts:
            functions.setdefault((mutant.crate, part.path), {}).setdefault((part.function.opens, part.function.end), []).append((mutant, part))
    for (crate, path), found in functions.items():
        write_branches(f"{room}/crates/{crate}/{path}", found)


def write_branches(file, found):
    """Writes the branches of the mutants of a file's functions; each mutant learns the lines of its branches."""
    text, made, at = read(file), "", 0
    for (opens, end), mutants in sorted(found.items()):
        made += text[at:opens] + "{\n"
        for mutant, part in mutants:
            first = made.count("\n") + 1
            made += f"if {SWITCH}::is_on({mutant.number}) {part.body.strip()} else "
            mutant.branches = [*getattr(mutant, "branches", []), (mutant.crate, part.path, first, made.count("\n") + 1)]
        made += text[opens:end] + "\n}"
        at = end
    with open(file, "w", encoding="utf-8") as it:
        it.write(made + text[at:])


def build(to):
    """Builds the program with all mutants that compile as branches; returns those."""
    mutants = [it for it in all_mutants() if it.can_be_switched()]
    os.environ["RT_ALLOW_C"] = SWITCH
    while True:
        for it in mutants:
            it.branches = []
        with tempfile.TemporaryDirectory(prefix="switched-") as room:
            write_switched(room, mutants)
            is_built, said = unproved.build(room, to)
        if is_built:
            return mutants
        errors = {(crate, path, int(line)) for crate, path, line in ERROR.findall(said)}
        refused = [it for it in mutants if any(is_in(branch, errors) for branch in it.branches)]
        if not refused:
            sys.exit(f"the program with all mutants is not built:\n{said[-3000:]}")
        for it in refused:
            print(f"{it.name}: it is no branch of its function: left out")
        mutants = [it for it in mutants if it not in refused]


def mutants_of(program):
    """Returns the mutants of the program, which is built if it is not there."""
    return [it for it in all_mutants() if it.can_be_switched()] if os.path.exists(program) else build(program)


def is_in(branch, errors):
    crate, path, first, last = branch
    return any((there in ("", crate)) and path == at and first <= line <= last for there, at, line in errors)


def all_rows():
    return sorted(it for it in os.listdir(rows.ROWS) if os.path.isdir(f"{rows.ROWS}/{it}"))


class Program:
    """The program with all mutants. Rows run it by a script that sets the mutant."""

    def __init__(self, file, room):
        self.file, self.room = os.path.abspath(file), room

    def with_mutant(self, number, reached=None):
        """Returns a script that runs the program with a mutant on."""
        path = f"{self.room}/{number}-{os.path.basename(reached or 'run')}"
        if not os.path.exists(path):
            more = f"ONCE_REACHED='{reached}' " if reached else ""
            with open(path, "w", encoding="utf-8") as it:
                it.write(f'#!/bin/sh\nONCE_MUTANT={number} {more}exec "{self.file}" "$@"\n')
            os.chmod(path, 0o755)
        return path

    def is_changed(self, row, number):
        """Returns whether the row comes out otherwise than it must with this mutant."""
        try:
            return bool(list(rows.faults(self.with_mutant(number), f"{rows.ROWS}/{row}")))
        except DidNotEnd:
            return True

    def reached(self, row):
        """Returns the numbers of the mutants whose functions the row calls, or None if it comes out wrong without any."""
        file = f"{self.room}/reached-{row}"
        if list(rows.faults(self.with_mutant(0, file), f"{rows.ROWS}/{row}")):
            return None
        return {int(it) for it in read(file).split()}


def find_rows(program, mutants, most, jobs):
    """Returns a row that shows each mutant, by its number, where there is one among the first that reach it."""
    names = all_rows()
    with ThreadPoolExecutor(jobs) as pool:
        reached = {row: it for row, it in zip(names, pool.map(program.reached, names)) if it}
        return dict(zip((it.number for it in mutants), pool.map(lambda it: first_row(program, it, reached, most), mutants)))


def first_row(program, mutant, reached, most):
    there = sorted((row for row, numbers in reached.items() if mutant.number in numbers), key=lambda it: (len(reached[it]), it))
    # (short runs of one part first, and then some of all others)
    some = there[: most // 2] + there[most // 2 :: max(1, len(there) // max(1, most // 2))]
    return next((row for row in dict.fromkeys(some) if program.is_changed(row, mutant.number)), None)


def is_asked(mutant, names):
    return not names or any(mutant.crate == it.partition("/")[0] and it.partition("/")[2] in mutant.name for it in names)


def write_found(mutants, found):
    for mutant in mutants:
        row = found.get(mutant.number)
        if row:
            with open(mutant.file, "a", encoding="utf-8") as file:
                file.write(f"shows: row {row}\n")


def main(arguments):
    parser = argparse.ArgumentParser(usage=__doc__.split("usage: ")[1].split("\n")[0])
    parser.add_argument("--write", action="store_true")
    parser.add_argument("--most", type=int, default=60)
    parser.add_argument("--jobs", type=int, default=len(os.sched_getaffinity(0)))
    parser.add_argument("--program")
    parser.add_argument("names", nargs="*")
    given = parser.parse_args(arguments)
    with tempfile.TemporaryDirectory(prefix="show-mutants-") as room:
        to = given.program or f"{room}/once"
        mutants = mutants_of(to)
        mutants = [it for it in mutants if is_asked(it, given.names)]
        program = Program(to, room)
        if given.write:
            unshown = [it for it in mutants if not it.edit.shows]
            found = find_rows(program, unshown, given.most, given.jobs)
            write_found(unshown, found)
            print(f"{sum(bool(it) for it in found.values())} of {len(unshown)} mutants are shown by a row")
            return 0
        claims = [(it, row[4:]) for it in mutants for row in it.edit.shows if row.startswith("row ")]
        with ThreadPoolExecutor(given.jobs) as pool:
            shown = [*pool.map(lambda it: program.is_changed(it[1], it[0].number), claims)]
    for (mutant, row), is_shown in zip(claims, shown):
        if not is_shown:
            print(f"{mutant.name}: the row {row} comes out as without the mutant")
    print(f"{sum(shown)} passed, {len(shown) - sum(shown)} failed")
    return 0 if all(shown) else 1


if __name__ == "__main__":
    sys.exit(main(sys.argv[1:]))
