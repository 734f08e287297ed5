#!/usr/bin/env python3
"""full_files.py PROGRAM: runs the program with files that become full at each of their octets.

Of each row that puts octets on links, no file may have more than 0 octets, then no more than 1, and so on until all are complete (a limit of
the system, RLIMIT_FSIZE: the write that reaches it writes what still fits, the next one fails, as on a full disk). Each run
must print `device 902` alone and end with status 5, except the last, which prints what the row does; a link's file holds the beginning
of what it should. The same with the answer in a file: the run must end with status 5, and the file has the beginning of the
answer, or of `device 902`. Prints a line for each row and ends with 1 if one fails.
"""
import os
import re
import resource
import shutil
import signal
import sys
import tempfile

from program import run
from refused_growth import ROWS, SWEPT, is_right, octets_of, wrong_links


def limited(most):
    """What is done before a program runs so that its files have at most this many octets."""
    def limit():
        signal.signal(signal.SIGXFSZ, signal.SIG_IGN)
        resource.setrlimit(resource.RLIMIT_FSIZE, (most, most))
    return limit


def run_row(program, row, folder, most, answer):
    """What the answer's file has, or a pipe where there is none, and the status."""
    words, given = octets_of(row, "words").decode().split(), octets_of(row, "stdin")
    how = {"given": given, "preexec_fn": limited(most)}
    if answer is None:
        done = run([program] + words, folder, **how)
        return done.stdout + done.stderr, done.returncode
    with open(answer, "wb") as file:
        done = run([program] + words, folder, stdout=file, **how)
    with open(answer, "rb") as file:
        return file.read(), done.returncode


def full_links(program, row, folder):
    """Whether a run ends as it should where a link's file is full at an octet, and what to say of it."""
    wanted, most = (octets_of(row, "stdout"), int(octets_of(row, "status"))), 0
    while True:
        said, status = run_row(program, row, folder, most, None)
        is_whole = (said, status) == wanted
        links = wrong_links(row, folder, is_whole, messages=False)
        if links or not is_whole and (said, status) != (b"device 902\n", 5):
            return False, "full at %d octets: status %d, printed %r, wrong octets on %s" % (most, status, said[:200], links)
        if is_whole:
            return most > 0, "full links at %d octets" % most
        most += 1


def full_answer(program, row, folder):
    """The same where the answer's file is full at an octet."""
    wanted, most = (octets_of(row, "stdout"), int(octets_of(row, "status"))), 0
    while most < len(wanted[0]):
        said, status = run_row(program, row, folder, most, os.path.join(folder, "answer"))
        if status != 5 or not (wanted[0].startswith(said) or b"device 902\n".startswith(said)):
            return False, "full at %d octets: status %d, printed %r" % (most, status, said[:200])
        most += 1
    return run_row(program, row, folder, most, os.path.join(folder, "answer")) == wanted, "full answers at %d octets" % most


def tried(program, row):
    """A row with links is tried with full links, another with a full answer."""
    way = full_links if any(re.fullmatch(r"link\d+\.hex", name) for name in os.listdir(os.path.join(ROWS, row))) else full_answer
    with tempfile.TemporaryDirectory() as room:
        return way(program, row, shutil.copytree(os.path.join(ROWS, row), os.path.join(room, "row")))


def main(program):
    failed = sum(not is_right(row, tried(os.path.abspath(program), row)) for row in SWEPT)
    return 1 if failed else 0


if __name__ == "__main__":
    if len(sys.argv) != 2:
        sys.exit(__doc__)
    sys.exit(main(sys.argv[1]))
