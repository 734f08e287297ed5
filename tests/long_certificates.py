#!/usr/bin/env python3
"""long_certificates.py PROGRAM: checks certificates that are too long to be stored.

Each is one tree, whose splits halve the sources of 10.0.0.0/8, made in a temporary folder, for the documents of the row
certificate-of-one-leaf: with 499,999 splits it has the 1,000,000 split and leaf lines that a certificate may have, with
500,000 splits one more. Prints a line for each that is answered otherwise, and last `N passed, M failed`; the exit status is 1 if
one was.
"""
import os
import sys
import tempfile

from program import run
from verdict import report_named

ROW = os.path.join(os.path.dirname(os.path.abspath(__file__)), "rows", "certificate-of-one-leaf")
SOURCES = (10 * 2**24, 11 * 2**24 - 1)

# splits, what must be printed, the exit status
WANTED = (
    (499_999, b"yes\n", 0),
    (500_000, b"no 414 line 1000003\n", 1),
)


def balanced_tree(splits, low, high):
    """The lines of a tree of this many splits of the sources from one to another, half of them on either side."""
    waiting = [(splits, low, high)]
    while waiting:
        splits, low, high = waiting.pop()
        if splits == 0:
            yield "L 1 1 1\n"
            continue
        below = (splits - 1) // 2
        at = low + (high - low + 1) * (below + 1) // (splits + 1)
        yield "S source %d\n" % at
        waiting += [(splits - 1 - below, at, high), (below, low, at - 1)]


def certificate(splits):
    """The lines of the certificate whose one tree has this many splits."""
    yield "once-certificate 1\nclass 1 path 1\n"
    yield from balanced_tree(splits, *SOURCES)
    yield "end\n"


def write_certificate(path, splits):
    with open(path, "w") as file:
        file.writelines(certificate(splits))


def faults(program, path, wanted, status):
    words = [program, "check", os.path.join(ROW, "network.json"), os.path.join(ROW, "traffic.json"), path]
    ran = run(words)
    if ran.stdout != wanted:
        yield "printed %r instead of %r" % (ran.stdout[:300], wanted)
    if ran.returncode != status:
        yield "status %d instead of %d" % (ran.returncode, status)
    if ran.stderr:
        yield "printed %r on standard error" % ran.stderr[:300]


def cases(program, path):
    for splits, wanted, status in WANTED:
        write_certificate(path, splits)
        yield "%d splits" % splits, faults(program, path, wanted, status)


def main(program):
    with tempfile.TemporaryDirectory() as folder:
        return report_named(cases(os.path.abspath(program), os.path.join(folder, "certificate.txt")))


if __name__ == "__main__":
    if len(sys.argv) != 2:
        sys.exit(__doc__)
    sys.exit(main(sys.argv[1]))
