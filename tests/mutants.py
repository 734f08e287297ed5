#!/usr/bin/env python3
"""Shows that the prover refuses each mutant that the repository keeps, many in one check.

usage: mutants.py [--kept | --as-built] [--anew] [--control] [--jobs N] [--show FILE] [NAME[/WORD]..]

Run at the top of the repository. The mutants are crates/NAME/mutants/*.edit, of lines

  file: src/FILE.rt      the file that the next pairs change
  in: FUNCTION           or TYPE::FUNCTION: where `old` occurs more than once in the file (optional)
  old: TEXT              a text that occurs there once
  new: TEXT              its replacement
  goal: NAME [ARGUMENT]..  the goal that refuses the mutant, which is then left to two tactics at once, with or without a stored
                         answer (optional: it saves time); the arguments of one without an answer are `c` if none is given
  refused: FUNCTION      of a constant that functions of other files name: the function that must be refused
  shows: row NAME        an input on which the mutant changes what a user sees: a row of tests/rows, `test CRATE::NAME`,
                         or a sentence that describes one

A mutant of a function that stands free or in an impl of its type is tried on a twin: beside the function there is a second one
with the same attributes, signature and clauses, a name of its own, the mutated body, and a copy of the function's proof
files. Methods of traits' impls and functions that call themselves are changed in place. So one check judges all twins of a
crate, several of one function too, and one mutant of each function in place; it judges callers of a refused function over that
function's contract. Constants are changed in place, several in one check, with the functions that name them.
Functions that no mutant changes are taken by their contracts if the crate's own library is built of the same text.

A mutant is refused if each function that it changes (of a constant: one that names it) has a goal that the tactics do not prove. Where
an answer that is stored for a goal no longer fits, the goal is tried anew by two tactics (tests/mutation/answers.py) before it counts.
Where an edit names a goal without a stored answer, the same two must prove that goal of the function's own body, unless that has no such
goal. A mutant is a BAD EDIT if it
cannot be applied or does not compile, if it changes a contract, if its function is refused only because a proof file names something
that the mutant removed, or if it has no line `shows:` and is not in tests/unshown.txt.

A verdict `refused` is kept on this machine, under a digest of everything that bears on it (tests/mutation/store.py), and not
tried again. One line a mutant that is tried; the last line is `N passed, N failed`.

  --kept      begin over a copy of what `rt check` kept of the crate
  --as-built  take the libraries from out/rlib, where `rt ci` has just put them
  --anew      try all mutants, also those whose verdicts are kept
  --pending   print how many mutants of each crate would be tried, and try none
  --goals     write a line `goal:` into each refused mutant on a twin that has none: a goal that refuses it alone, which later trials
              then try alone
  --control   try each function that a mutant changes, on a twin or in place, with its own body: all must be proved
  --follow    try each crate's mutants as soon as `rt ci`, which runs beside this, keeps the crate's proof; end where standard
              input does, which says that `rt ci` has ended, once no more are ready
  --jobs N    processes of each check
  --show FILE write all that the checks print to the file, each line after the second at which it came
  NAME/WORD   only the mutants of this crate whose name contains WORD
"""
import argparse
import os
import select
import sys
import time
from concurrent.futures import FIRST_COMPLETED, ThreadPoolExecutor, wait

sys.dont_write_bytecode = True
sys.path.insert(0, os.path.dirname(os.path.realpath(__file__)))
from kit import load_rt
from mutation.edits import TWIN, Edit
from mutation.goals import name_goals
from mutation.judge import trial_of
from mutation.libraries import Libraries
from mutation.store import Digests, Store, store_folder
from shown import faults_of

FOLDER = "mutants"
# The elapsed seconds from which a mutant's time is shown.
LONG = 20
# How often it is looked for crates that `rt ci` has proved meanwhile.
FOLLOW_SECONDS = 5


def arguments_of(arguments):
    parser = argparse.ArgumentParser(usage=__doc__.split("usage: ")[1].split("\n")[0])
    for flag in ("--kept", "--as-built", "--anew", "--pending", "--goals", "--control", "--follow"):
        parser.add_argument(flag, action="store_true")
    parser.add_argument("--jobs", type=int, default=1)
    parser.add_argument("--show", type=os.path.abspath)
    parser.add_argument("names", nargs="*")
    return parser.parse_args(arguments)


def edits_of(crate, names):
    """Returns the crate's mutants that are asked for, and the other files of their folder."""
    at = f"{crate.folder}/{FOLDER}"
    files = sorted(os.listdir(at)) if os.path.isdir(at) else []
    asked = [word for name, _, word in (it.partition("/") for it in names) if name == crate.name]
    files = [it for it in files if not names or any(word in it for word in asked)]
    others = [it for it in files if not it.endswith((".edit", ".md"))]
    return [f"{at}/{it}" for it in files if it.endswith(".edit")], others


def build_below(crates, arguments, libraries):
    """Builds the libraries below the crates that have none of their present sources; returns whether all are there."""
    for dep in {it.name: it for crate in crates for it in crate.below()}.values():
        is_there = libraries.is_proved(dep) or arguments.as_built and os.path.isdir(dep.rlib)
        if not is_there and dep.build_rlib(["--jobs", str(arguments.jobs)], anew=False):
            print(f"the library {dep.name} is not built: run `rt ci {dep.name}`")
            return False
    return True


class Mutants:
    """The mutants of one crate: its edits, those of them whose verdicts are kept, and what is wrong with their files."""

    def __init__(self, crate, files, others, digests, store):
        self.crate, self.digests, self.store = crate, digests, store
        self.edits = [Edit(crate.folder, it) for it in files]
        self.files = {os.path.basename(it): it for it in files}
        self.known = {it: text for it in self.edits if (text := store.get(digests.of_mutant(crate, it)))}
        self.faults = [f"{name}: BAD EDIT: {why}" for name, why in faults_of(crate.name, self.edits).items()]
        self.faults += [f"{it}: BAD EDIT: its name does not end in .edit" for it in others]

    def pending(self):
        return [it for it in self.edits if it not in self.known]

    def keep(self, edits):
        for it in edits:
            if it.verdict.is_refused:
                self.store.put(self.digests.of_mutant(self.crate, it), it.verdict.text)


def try_crate(rt, mutants, arguments, may_keep):
    """Tries a crate's mutants, prints a line for each, and returns how many passed and failed, and the seconds used."""
    edits, began = mutants.pending(), time.monotonic()
    files = [mutants.files[it.name] for it in edits]
    trial = trial_of(rt, mutants.crate, edits, files, arguments)
    if arguments.goals:
        name_goals(trial, edits, files)
    if may_keep and not arguments.control:
        mutants.keep(edits)
    report(mutants, edits, trial, time.monotonic() - began)
    failed = {it.name for it in edits if not it.verdict.is_refused}
    return len(edits) - len(failed), len(failed), trial.seconds


def report(mutants, edits, trial, seconds):
    name = mutants.crate.name
    rows = [f"{name}/{it.name}: {it.verdict.text}" for it in edits]
    took = {it.name: sum(trial.took_for(part) for part in it.parts) for it in edits}
    rows += [f"{name}/{it}: took {seconds:.0f} s" for it, seconds in took.items() if seconds > LONG]
    twins = sum(it.kind == TWIN for it in edits)
    rows.append(
        f"{name}: {len(edits)} mutants tried, {twins} of them on twins, in {trial.checks} checks, {len(mutants.known)} known; "
        f"{trial.anew} goals tried anew; {trial.seconds:.0f} s of processor time, {seconds:.0f} s, at most {trial.peak} MB"
    )
    print("\n".join(rows), flush=True)


def found_mutants(rt, crates, arguments):
    """Returns the crates' mutants that are asked for, by crate."""
    root = os.getcwd()
    digests, store = Digests(rt, root), Store(store_folder(rt.KIT), FOLDER, arguments.anew or arguments.control)
    found = [(it, *edits_of(it, arguments.names)) for it in crates]
    return [Mutants(*it, digests, store) for it in found if it[1] or it[2]]


def main(arguments):
    arguments, rt = arguments_of(arguments), load_rt()
    os.environ.pop(rt.rtlib.ALLOW_C, None)
    rt.rtlib.guarded()
    crates = rt.rtlib.crates_below(os.getcwd())
    found = found_mutants(rt, crates, arguments)
    known, left = sum(len(it.known) for it in found), [it for it in found if it.pending()]
    if arguments.pending:
        for it in left:
            print(f"{it.crate.name}: {len(it.pending())} of {len(it.edits)} mutants")
        return 0
    faults = [f"{it.crate.name}/{fault}" for it in found for fault in it.faults]
    libraries = Libraries(rt, os.getcwd(), crates)
    if arguments.follow:
        given = follow(rt, left, arguments, libraries)
    elif build_below([it.crate for it in left], arguments, libraries):
        given = rt.in_lanes({(it.crate.name, "edits"): task_of(rt, it, arguments, libraries) for it in left}).values()
    else:
        return 1
    passed, failed, seconds = (sum(it[at] for it in given) for at in range(3))
    lost = sum(len(it.pending()) for it in left) - passed - failed
    if lost:
        print(f"{lost} mutants were not tried, as their crates were not proved")
    for it in faults:
        print(it)
    print(f"mutants: {passed + failed} tried, {known} known from earlier runs on this machine; {seconds:.0f} s of processor time")
    print(f"{passed + known} passed, {failed + len(faults) + lost} failed")
    return 1 if failed or faults or lost or not passed + known else 0


def follow(rt, left, arguments, libraries):
    """Tries the mutants of each crate once its proof is kept, the longest first; returns what each trial gave."""
    waiting, running, given = sorted(left, key=lambda it: -len(it.pending()) * it.crate.count(rb"\n")), set(), []
    with ThreadPoolExecutor(rt.processors()) as pool:
        while waiting or running:
            has_ended = has_input_ended()
            forget_unproved(libraries)
            # (a crate below that is not proved settles it: its library is looked for once a round, and those above it are not)
            ready = [it for it in waiting if all(libraries.is_proved(dep) for dep in [*it.crate.below(), it.crate])]
            for it in ready[: rt.processors() - len(running)]:
                waiting.remove(it)
                running.add(pool.submit(try_crate, rt, it, arguments, True))
            if has_ended and not running and not ready:
                break
            done, running = wait(running, timeout=FOLLOW_SECONDS, return_when=FIRST_COMPLETED)
            given += [it.result() for it in done]
            if not running and not ready:
                time.sleep(FOLLOW_SECONDS)
    return given


def forget_unproved(libraries):
    """Has crates that were not proved a while ago looked for again."""
    libraries.found = {name: True for name, is_proved in libraries.found.items() if is_proved}


def has_input_ended():
    """Returns whether standard input has ended; it has no octets."""
    return bool(select.select([sys.stdin], [], [], 0)[0])


def task_of(rt, mutants, arguments, libraries):
    """Returns the trial of a crate's mutants as a task: one crate a processor, as many as memory holds, the longest first."""
    crate = mutants.crate
    # (a verdict over a library of other sources must not be kept)
    may_keep = libraries.are_proved(crate.below()) and (libraries.is_proved(crate) or not os.path.isdir(crate.rlib))
    work = lambda given, jobs: try_crate(rt, mutants, arguments, may_keep)
    return [], len(mutants.pending()) * crate.count(rb"\n"), rt.need(crate), work


if __name__ == "__main__":
    sys.exit(main(sys.argv[1:]))
