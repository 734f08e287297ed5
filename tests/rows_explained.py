#!/usr/bin/env python3
"""rows_explained.py PROGRAM [ROW..]: runs the worked rows with `--explain`, before their other arguments and after them.

Standard output must begin with what the row prints without it, with the row's status, and nothing may be on standard error. A
refusal, an answer of no and `unknown 601` must be followed by what is wrong and what to do; and before that by the lines of the row's
file `explained`, if it has one.

Prints a line for each row that fails, and last `N passed, M failed`. The exit status is 1 if a row failed.
"""
import os
import re
import sys

import rows
from program import run
from rows import ROWS, octets_of, ways, words_of

# A line after which a person has to do something.
ASKS = re.compile(rb"(refused|no|unknown|device|memory) \d+")

# Rows whose output isn't read, or whose files are cut; nor those with links, whose files would be written beside them.
PASSED_OVER = ("output", "cuts")


def faults(program, row):
    wanted, status = octets_of(row, "stdout", None), int(octets_of(row, "status"))
    for way in ways(words_of(row), ["--explain"]):
        ran = run([program] + way, row, octets_of(row, "stdin"))
        if ran.returncode != status:
            yield "status %d instead of %d" % (ran.returncode, status)
        if wanted is not None and not ran.stdout.startswith(wanted):
            yield "printed %r first instead of %r" % (ran.stdout[:200], wanted[:200])
        if ran.stderr:
            yield "printed %r on standard error" % ran.stderr[:200]
        if wanted is not None and ASKS.match(wanted):
            rest = ran.stdout[len(wanted) :]
            if b"\nwrong: " not in b"\n" + rest or b"\nwhat to do: " not in rest:
                yield "printed no explanation after %r: %r" % (wanted, rest[:200])
        explained = octets_of(row, "explained", None)
        if explained is not None and (b"\n" + explained) not in b"\n" + ran.stdout:
            yield "explained %r, which lacks %r" % (ran.stdout, explained)


def is_read(name):
    row = os.path.join(ROWS, name)
    return not any(os.path.exists(os.path.join(row, part)) for part in PASSED_OVER) and b"--links" not in octets_of(row, "words")


if __name__ == "__main__":
    if len(sys.argv) < 2:
        sys.exit(__doc__)
    sys.exit(rows.main(sys.argv[1], filter(is_read, sys.argv[2:] or sorted(os.listdir(ROWS))), faults))
