"""What bench/check.sh runs, too: check_lists.py PROGRAM FOLDER, the folder for documents and certificates."""
import os
import sys

import lists
from audit import answered
from instructions import SIZES, instructions

ORDERS = ("ascending", "descending", "shuffled")
MOST, FLAT = 2_000, 1.5


def figure(program, work, meters, filters, order):
    """The instructions per line of a check, without those for reading the documents."""
    documents, found = lists.documents(work, meters, filters, order), os.path.join(work, "found.txt")
    answered([program, "audit", *documents], 0, "once-certificate 1\n", found)
    answered([program, "check", *documents, found], 0, "yes\n")
    lines = lists.lines_of(meters, filters)
    taken = (instructions([program, "check", *documents, found]) - instructions([program, "lint", *documents])) / lines
    print("%2d x %d filters, %-10s %6d lines: %5.0f instructions a line" % (meters, filters, order, lines, taken))
    return taken


def main(program, work):
    program = os.path.abspath(program)
    figures = [figure(program, work, *size, order) for size in SIZES for order in ORDERS]
    print("per line: at most %.0f instructions, %.2f times the least" % (max(figures), max(figures) / min(figures)))
    return 0 if max(figures) <= MOST and max(figures) <= FLAT * min(figures) else 1


if __name__ == "__main__":
    sys.exit(main(*sys.argv[1:]))
