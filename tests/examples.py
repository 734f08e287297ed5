#!/usr/bin/env python3
"""examples.py PROGRAM: runs the program over the examples, and compares what it prints with their files.

Runs are replayed (run*.txt, totals*.txt), certificates checked (certificate*.txt, answer*.txt), refutations confirmed
(refutation*.txt, refuted*.txt), and captures metered (capture.pcap with schedule.txt, metered.txt). Prints a line for each that
differs, and last `N passed, M failed`.
"""
import glob
import os
import sys

from program import run
from verdict import report_each

TOP = os.path.dirname(os.path.dirname(os.path.abspath(__file__)))
# The command by the kind of file, and the kind of file that has what it must print.
KINDS = {"run": ("replay", "totals"), "certificate": ("check", "answer"), "refutation": ("confirm", "refuted")}


def calls():
    """Returns the arguments of each call, and the file with what it must print."""
    for kind, (command, printed) in KINDS.items():
        for path in sorted(glob.glob(f"{TOP}/examples/*/{kind}*.txt")):
            folder, name = os.path.split(path)
            documents = [f"{folder}/network.json", f"{folder}/traffic.json"]
            yield [command, *documents, path], f"{folder}/{printed}{name[len(kind):]}"
    for path in sorted(glob.glob(f"{TOP}/examples/*/capture.pcap")):
        folder = os.path.dirname(path)
        documents = [f"{folder}/network.json", f"{folder}/traffic.json"]
        yield ["run", *documents, path, f"{folder}/schedule.txt"], f"{folder}/metered.txt"


def fault(program, arguments, expected):
    """Returns what is wrong with a call, or None."""
    ran = run([program, *arguments])
    with open(expected, "rb") as file:
        wanted = file.read()
    at = os.path.relpath(arguments[-1], TOP)
    return None if ran.stdout == wanted else f"{at}: `once {arguments[0]}` prints {ran.stdout[:500]!r}"


def main(program):
    return report_each(fault(os.path.abspath(program), *it) for it in calls())


if __name__ == "__main__":
    if len(sys.argv) != 2:
        sys.exit(__doc__)
    sys.exit(main(sys.argv[1]))
