#!/usr/bin/env python3
"""Runs the steps of the gate that follow the proofs and the mutants, and lists the tests that did not run.

usage: gate.py [--anew] [--jobs N] [NAME..]

Run at the top of the repository, with the program as ./once. The steps are those of tests/steps.py, all or the named ones. A step
that passed over the same program and the same files on this machine is not run again, but with --anew. What a step prints is
shown if it fails. A line `not run: WHAT: WHY` of a step is listed at the end. With CI=true in the environment a test that a missing
package prevents is a failure, and so is a script that ran no case. The last line is `N passed, N failed`, of steps.
"""
import argparse
import os
import re
import shutil
import sys
import time
from concurrent.futures import ThreadPoolExecutor

sys.dont_write_bytecode = True
import program
from mutation.store import Store, digest, digest_of_files, store_folder
from steps import PROGRAM, STEPS, command_of

# The files that steps may read, besides the program.
INPUTS = ("tests", "examples", "docs", "bench", "packaging", "tools", "README.md", "Makefile", "crates/fx_words/src", "crates/fx_base/src")
NO_CASE = re.compile(r"(?m)^0 passed, 0 failed$|^no tests ran")
# What a script says of a test that cannot run, and pytest of one that it skips.
NOT_RUN = re.compile(r"(?m)^(?:not run: |SKIPPED ).*$")
SECONDS = 1800


def kit_folder():
    """Returns the kit's folder, or where it would be."""
    return os.path.dirname(os.path.dirname(os.path.realpath(shutil.which("rt") or "/opt/rattle/bin/rt")))


class Outcome:
    """What a step came to: its status, what it printed, and for how long it ran; `is_known` of an earlier run."""

    def __init__(self, status, said, seconds=0.0, is_known=False):
        self.status, self.said, self.seconds, self.is_known = status, said, seconds, is_known

    def not_run(self):
        return NOT_RUN.findall(self.said)

    def fault(self, is_strict):
        """Returns why the step fails, or None."""
        if self.status:
            return f"it ended with status {self.status}"
        if is_strict and NO_CASE.search(self.said):
            return "it ran no case"
        lacking = [it for it in self.not_run() if "package" in it]
        if is_strict and lacking:
            return f"it lacks packages: {lacking[0]}"
        return None


def run(step):
    began = time.monotonic()
    environment = {**os.environ, "ONCE": PROGRAM, "PYTHONDONTWRITEBYTECODE": "1"}
    try:
        ran = program.run(command_of(step), seconds=SECONDS, env=environment, stderr=program.WITH_OUTPUT, text=True, errors="replace")
        return Outcome(ran.returncode, ran.stdout, time.monotonic() - began)
    except program.DidNotEnd as error:
        return Outcome(124, f"{error.stdout or ''}\nit did not end within {SECONDS} s", time.monotonic() - began)


def versions(packages):
    """Returns the versions of Debian packages, and whether each is installed."""
    words = ["dpkg-query", "-W", "-f=${Package} ${Version} ${db:Status-Status}\n", *packages]
    try:
        return program.run(words, stderr=program.NOWHERE, text=True).stdout if packages else ""
    except OSError:
        return ""


class Gate:
    """The steps, with the results that earlier runs on this machine kept."""

    def __init__(self, is_anew):
        self.store = Store(store_folder(kit_folder()), "steps", is_anew)
        self.inputs = digest_of_files(".", [*INPUTS, PROGRAM])
        self.is_strict = os.environ.get("CI") == "true"

    def outcome(self, step):
        """Returns what the step comes to, and prints a line on it."""
        name = digest(self.inputs, step.name, step.arguments, versions(step.needs), sys.version_info[:2])
        known = self.store.get(name) if step.keeps else None
        found = Outcome(0, known, is_known=True) if known is not None else run(step)
        fault = found.fault(self.is_strict)
        if not fault and not found.not_run() and not found.is_known and step.keeps:
            self.store.put(name, found.said[-2000:])
        self.show(step, found, fault)
        return found, fault

    def show(self, step, found, fault):
        last = (found.said.strip().split("\n") or [""])[-1][:100]
        how = "known" if found.is_known else "%.0f s" % found.seconds
        rows = [found.said.rstrip()] if fault else []
        print("\n".join([*rows, f"{step.name}: {'FAILED: ' + fault if fault else last} ({how})"]), flush=True)


def outcomes(gate, steps, jobs):
    """Runs steps side by side, and after them those that run alone; returns the step, its outcome and its fault of each."""
    together, alone = [it for it in steps if not it.alone], [it for it in steps if it.alone]
    with ThreadPoolExecutor(jobs) as pool:
        found = [*zip(together, pool.map(gate.outcome, together))]
    return [(step, *it) for step, it in [*found, *((it, gate.outcome(it)) for it in alone)]]


def main(arguments):
    parser = argparse.ArgumentParser(usage=__doc__.split("usage: ")[1].split("\n")[0])
    parser.add_argument("--anew", action="store_true")
    parser.add_argument("--jobs", type=int, default=len(os.sched_getaffinity(0)))
    parser.add_argument("names", nargs="*")
    given = parser.parse_args(arguments)
    unknown = [it for it in given.names if it not in [step.name for step in STEPS]]
    if unknown:
        parser.error(f"there is no step {unknown[0]}: {', '.join(it.name for it in STEPS)}")
    steps = [it for it in STEPS if not given.names or it.name in given.names]
    if any(it.is_of_program for it in steps) and not os.path.exists(PROGRAM):
        parser.error(f"there is no {PROGRAM}: run `make once`")
    found = outcomes(Gate(given.anew), steps, given.jobs)
    missing = [f"{step.name}: {line}" for step, it, _ in found for line in it.not_run()]
    if missing:
        print("Tests that did not run:")
        print("\n".join(f"  {it}" for it in missing))
    failed = [step.name for step, _, fault in found if fault]
    if failed:
        print(f"FAILED: {', '.join(failed)}")
    known = sum(it.is_known for _, it, _ in found)
    print(f"steps: {len(found) - known} run, {known} known from earlier runs on this machine")
    print(f"{len(found) - len(failed)} passed, {len(failed)} failed")
    return 1 if failed else 0


if __name__ == "__main__":
    sys.exit(main(sys.argv[1:]))
