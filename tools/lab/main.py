"""`make lab`: brings the lab up, runs scenarios, compares, and takes the lab down again, whatever happened."""
from __future__ import annotations

import argparse
import os
import shutil
import signal
import sys
import tempfile
import time
from pathlib import Path
from typing import NoReturn

from lab import namespaces, rounds, routing, rows
from lab.drawing import drawing
from lab.page import write_table
from lab.programs import PREFIX, LabError, path_of
from lab.results import Results, compare, make, read, write
from lab.scenario import Scenario
from lab.scenarios import all_scenarios
from lab.verdicts import Verdict

PROGRAMS = ("ip", "sysctl", "ethtool", "zebra", "ospfd", "vtysh", "ovsdb-server", "ovs-vswitchd", "ovs-vsctl", "pmacctd", "nfacctd",
            "softflowd", "nfcapd", "nfdump", "tshark", "dumpcap", "mergecap")
TOP = Path(__file__).resolve().parents[2]


def why_not(once: str) -> str:
    """Returns why the lab cannot run here, or nothing."""
    if os.geteuid():
        return "this is not root"
    try:
        for name in PROGRAMS:
            path_of(name)
    except LabError as error:
        return str(error)
    if not shutil.which(once):
        return f"there is no program {once}: build it, or name another by ONCE"
    if namespaces.there():
        return "the lab stands already: another run uses it, or take it down by `make lab ARGUMENTS=--down`"
    return namespaces.may_use_namespaces()


def chosen_of(names: list[str], is_all: bool) -> list[Scenario]:
    """Returns the scenarios whose names begin with a word; without words those of the core, or all."""
    known = all_scenarios()
    if names:
        return [one for one in known if any(one.name.startswith(name) for name in names)]
    return [one for one in known if is_all or one.is_core]


def parsed() -> argparse.Namespace:
    """Returns the arguments."""
    parser = argparse.ArgumentParser(prog="make lab", description=__doc__)
    parser.add_argument("names", nargs="*", metavar="NAME", help="scenarios whose names begin so (default: the core)")
    parser.add_argument("--all", action="store_true", help="all scenarios")
    parser.add_argument("--list", action="store_true", help="print the scenarios, and run none")
    parser.add_argument("--draw", action="store_true", help="print the lab as a graph in the DOT language, and run none")
    parser.add_argument("--once", default=os.environ.get("ONCE", str(TOP / "once")), help="the program `once`")
    parser.add_argument("--out", type=Path, default=TOP / "out" / "lab", help="folder of results (default: out/lab)")
    parser.add_argument("--table", type=Path, metavar="PAGE", help="write the table of results into a page")
    parser.add_argument("--rows", type=Path, metavar="FOLDER", help="write rows of streams for tests/rows, and run nothing else")
    parser.add_argument("--agree", type=Path, metavar="FILE", help="demand that an earlier run's results.json agrees")
    parser.add_argument("--down", action="store_true", help="take down a lab that an earlier run left")
    return parser.parse_args()


def run_lab(arguments: argparse.Namespace, chosen: list[Scenario]) -> Results:
    """Runs scenarios in labs that are brought up for them and taken down, whatever happens."""
    began = time.monotonic()
    report = rounds.run(chosen, arguments.out, shutil.which(arguments.once) or arguments.once)
    if arguments.rows and not report.faults:
        rows.write_rows(report.results, arguments.rows)
    return make(report.results, report.faults, report.up, time.monotonic() - began)


def end_by_signal(number: int, _: object) -> NoReturn:
    """Ends the run as by an error, so that the lab is taken down."""
    raise rounds.Ended(f"ended by signal {number}")


def finish(arguments: argparse.Namespace, results: Results) -> int:
    """Writes the outcome of a run, and returns the exit status."""
    path = arguments.out / "results.json"
    earlier = read(arguments.agree) if arguments.agree else None
    write(results, path)
    faults = results.faults + (compare(earlier, read(path)) if earlier else [])
    verdicts = [one["verdict"] for one in results.scenarios]
    tally = ", ".join(f"{verdicts.count(one.value)} {one.value}" for one in Verdict)
    repeated = sum(bool(one["lost before"]) for one in results.scenarios)
    print(f"{len(verdicts)} scenarios measured, {repeated} after a repetition: {tally}; {len(faults)} faults, {results.seconds:.0f} s")
    for fault in faults:
        print(f"fault: {fault}")
    if arguments.table and not faults:
        write_table(arguments.table, results)
    elif arguments.table:
        print(f"the table of {arguments.table} is not written")
    return 1 if faults else 0


def main() -> int:
    """Returns 0 if all scenarios came to what is expected, 1 if not, and 2 for wrong arguments or a lab that does not come up."""
    arguments = parsed()
    chosen = rows.scenarios() if arguments.rows else chosen_of(arguments.names, arguments.all)
    if arguments.down:
        routing.stop()
        namespaces.down()
        for left in Path(tempfile.gettempdir()).glob(f"{PREFIX}*"):
            shutil.rmtree(left)
        return 0
    if arguments.draw:
        print("\n".join(drawing()))
        return 0
    if arguments.list or not chosen:
        print("\n".join(f"{one.name:<16} {one.title}" for one in chosen) or f"no scenario begins with {arguments.names}")
        return 0 if chosen else 2
    why = why_not(arguments.once)
    if why:
        print(f"not run: lab: {why}")
        return 1 if os.environ.get("CI") == "true" else 0
    signal.signal(signal.SIGTERM, end_by_signal)
    try:
        return finish(arguments, run_lab(arguments, chosen))
    except LabError as error:
        print(f"lab: {error}", file=sys.stderr)
        return 2


if __name__ == "__main__":
    sys.exit(main())
