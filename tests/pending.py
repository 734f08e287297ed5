#!/usr/bin/env python3
"""Lists what the gate would still have to prove and try on this machine, with the times of docs/GATE.md.

usage: pending.py

Run at the top of the repository. A crate is listed if `rt ci` keeps no proof of its present files over the present libraries below it,
its tests if no proof of them is kept, and its mutants if no verdict on them is. Times are in seconds of CPU time, from the table of
docs/GATE.md; a crate that the table lacks is counted by its lines. The last line has the sum, and the minutes on the processors
of this machine.
"""
import hashlib
import json
import os
import re
import sys

sys.dont_write_bytecode = True
import mutants
from kit import load_rt

ROW = re.compile(r"(?m)^\| `(\w+)` \| ([\d,]*) \| ([\d,]*) \| (\d*) \|")
# Seconds of a proof a line of code, and of a mutant: what crates of the table take about.
BY_LINE, BY_MUTANT = 0.1, 6.0


class Costs:
    """The times of docs/GATE.md: a row has the crate, the seconds of its proof, those of its mutants, and how many these are."""

    def __init__(self, page="docs/GATE.md"):
        number = lambda text: float(text.replace(",", "")) if text else None
        with open(page, encoding="utf-8") as file:
            self.rows = {name: (number(proof), number(tried), number(many)) for name, proof, tried, many in ROW.findall(file.read())}

    def of_proof(self, crate):
        known = self.rows.get(crate.name, (None,))[0]
        return known if known is not None else BY_LINE * crate.count(rb"\n")

    def of_mutants(self, name, many):
        _, tried, all_of_them = self.rows.get(name, (None, None, None))
        return many * (tried / all_of_them if tried and all_of_them else BY_MUTANT)


class Proofs:
    """Which crates `rt ci` keeps proofs of, looked up by the names of its entries, without their libraries."""

    def __init__(self, rt, crates):
        rt.Crate.allowed = rt.handles_of(os.getcwd())
        self.kept = rt.Kept(crates)
        self.found = {it.name: self.is_kept(it) for it in crates}

    def is_kept(self, crate):
        """Returns whether a proof of the crate is kept; the crates below it come first."""
        if not self.kept.at or any(self.kept.rlibs.get(it.name) is None for it in crate.below()):
            return False
        try:
            with open(f"{self.kept.place(crate, False, self.kept.key(crate))}/made.json", encoding="utf-8") as it:
                files = [(path, sum) for path, sum in json.load(it)["files"]]
        except (OSError, ValueError, KeyError, TypeError):
            return False
        self.kept.rlibs[crate.name] = hashlib.sha256(repr([] if crate.is_program else files).encode()).hexdigest()
        return True

    def has_tests_kept(self, crate):
        return not crate.has_tests() or self.found[crate.name] and os.path.isdir(self.kept.place(crate, True, self.kept.key(crate)))


def pending_proofs(rt, crates, costs):
    """Yields what is pending of proofs, each with its seconds."""
    proofs = Proofs(rt, crates)
    for crate in crates:
        if not proofs.found[crate.name]:
            yield f"{crate.name}: proof", costs.of_proof(crate)
        elif not proofs.has_tests_kept(crate):
            yield f"{crate.name}: its tests", costs.of_proof(crate)


def pending_mutants(rt, crates, costs):
    """Yields what is pending of mutants, each with its seconds."""
    for it in mutants.found_mutants(rt, crates, mutants.arguments_of([])):
        if it.pending():
            yield f"{it.crate.name}: {len(it.pending())} of {len(it.edits)} mutants", costs.of_mutants(it.crate.name, len(it.pending()))


def main():
    rt, costs = load_rt(), Costs()
    os.environ.pop(rt.rtlib.ALLOW_C, None)
    rt.rtlib.Crate = rt.Crate
    crates = rt.rtlib.crates_below(os.getcwd())
    found = [*pending_proofs(rt, crates, costs), *pending_mutants(rt, crates, costs)]
    for name, seconds in found:
        print(f"{name}, {seconds:.0f} s")
    whole, lanes = sum(it for _, it in found), rt.processors()
    print(f"pending: {whole / 60:.0f} minutes of CPU time, some {whole / 60 / lanes:.0f} minutes on {lanes} processors")
    return 0


if __name__ == "__main__":
    sys.exit(main())
