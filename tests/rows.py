#!/usr/bin/env python3
"""rows.py PROGRAM [ROW..]: runs the program over the worked rows, each a folder of tests/rows.

  words    the program's arguments, in one line; the files that they name are beside it (no file: no arguments)
  stdin    what it gets on standard input (no file: nothing)
  stdout   what it must print, octet for octet (no file: not compared)
  explained  what follows that with `--explain`, except what is said of each refusal of its number (rows_explained.py)
  output   the file that its standard output is, as /dev/full (no file: it is read)
  status   its exit status
  refutes  is there if it must print a refutation that `confirm` accepts, over the same documents; with a number: one of that many
           steps
  linkN.hex, linkN.len, nolink.N
           the octets that must be in the file linkN, how many they must be, or that it must not exist; the program runs in a
           copy of the folder
  cuts     the name of a file that is cut to each of the lengths of cuts.txt: a line has the length, the exit status and
           what must be printed, with `\\n` for the ends of lines

Prints a line for each row that fails, and last `N passed, M failed`. The exit status is 1 if a row failed.
"""
import contextlib
import os
import shlex
import shutil
import sys
import tempfile

from program import PIPE, run
from verdict import report_named

ROWS = os.path.join(os.path.dirname(os.path.abspath(__file__)), "rows")


def octets_of(row, name, default=b""):
    path = os.path.join(row, name)
    if not os.path.exists(path):
        return default
    with open(path, "rb") as file:
        return file.read()


def words_of(row):
    """The program's arguments."""
    return shlex.split(octets_of(row, "words").decode())


def ways(words, option):
    """The arguments with an option before all and after all; after `--` it would be a file's name."""
    yield [*option, *words]
    if words and "--" not in words:
        yield [*words, *option]


@contextlib.contextmanager
def folder_of(row):
    """The folder of a row, or a copy of it if the program writes files there or one is cut."""
    if b"--links" not in octets_of(row, "words") and not os.path.exists(os.path.join(row, "cuts")):
        yield row
        return
    with tempfile.TemporaryDirectory() as folder:
        yield shutil.copytree(row, os.path.join(folder, "row"))


def faults(program, row):
    with folder_of(row) as folder:
        if os.path.exists(os.path.join(row, "cuts")):
            yield from faults_of_cuts(program, folder)
        else:
            yield from faults_in(program, folder)
            yield from faults_of_links(folder)


def cuts_of(row):
    """The lengths to which a row's file is cut, each with the exit status and what must be printed."""
    for line in octets_of(row, "cuts.txt").decode().splitlines():
        length, status, text = line.split(" ", 2)
        yield int(length), int(status), text.replace("\\n", "\n").encode()


def faults_of_cuts(program, folder):
    name, words = octets_of(folder, "cuts").decode().strip(), words_of(folder)
    whole = octets_of(folder, name)
    for length, status, wanted in cuts_of(folder):
        with open(os.path.join(folder, name), "wb") as file:
            file.write(whole[:length])
        ran = run([program] + words, folder)
        if ran.returncode != status or ran.stdout != wanted or ran.stderr:
            yield "cut to %d octets: status %d and %r" % (length, ran.returncode, ran.stdout[:300])


def faults_of_links(folder):
    for name in sorted(os.listdir(folder)):
        link, _, kind = name.partition(".")
        if kind == "hex":
            wanted, found = bytes.fromhex(octets_of(folder, name).decode()), octets_of(folder, link)
            if found != wanted:
                yield "%s has %s instead of %s" % (link, found.hex()[:300], wanted.hex()[:300])
        elif kind == "len" and len(octets_of(folder, link)) != int(octets_of(folder, name)):
            yield "%s has %d octets instead of %d" % (link, len(octets_of(folder, link)), int(octets_of(folder, name)))
        elif link == "nolink" and os.path.exists(os.path.join(folder, "link" + kind)):
            yield "link%s must not exist" % kind


@contextlib.contextmanager
def output_of(row):
    """What a row's standard output is."""
    name = octets_of(row, "output").decode().strip()
    if not name:
        yield PIPE
        return
    with open(name, "wb") as file:
        yield file


def faults_in(program, row):
    words = words_of(row)
    with output_of(row) as to:
        ran = run([program] + words, row, octets_of(row, "stdin"), stdout=to)
    wanted, status = octets_of(row, "stdout", None), int(octets_of(row, "status"))
    if wanted is not None and ran.stdout != wanted:
        yield "printed %r instead of %r" % (ran.stdout[:300], wanted[:300])
    if ran.returncode != status:
        yield "status %d instead of %d" % (ran.returncode, status)
    if ran.stderr:
        yield "printed %r on standard error" % ran.stderr[:300]
    steps = octets_of(row, "refutes", None)
    if steps is not None:
        yield from unconfirmed(program, row, words[1:], ran.stdout, steps.decode().strip())


def unconfirmed(program, row, documents, refutation, steps):
    """Says why the printed refutation isn't what is wanted: the lines of its steps are between its first two and `end`."""
    lines = refutation.decode().splitlines()
    if steps and len(lines) - 3 != int(steps):
        yield "printed %d steps instead of %s" % (len(lines) - 3, steps)
    with tempfile.NamedTemporaryFile() as file:
        file.write(refutation)
        file.flush()
        ran = run([program, "confirm", *documents, file.name], row)
    if ran.returncode != 0 or not ran.stdout.startswith(b"refuted\n"):
        yield "printed what `confirm` answers with %r" % ran.stdout[:200]


def main(program, names, faults=faults):
    program = os.path.abspath(program)
    return report_named((name, faults(program, os.path.join(ROWS, name))) for name in names)


if __name__ == "__main__":
    if len(sys.argv) < 2:
        sys.exit(__doc__)
    sys.exit(main(sys.argv[1], sys.argv[2:] or sorted(os.listdir(ROWS))))
