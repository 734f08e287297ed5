#!/usr/bin/env python3
"""checker.py CHECKER [ROW..]: runs the checker by itself, `once_check`, over the worked rows of `once check`.

Of each row whose arguments are `check` and three files, CHECKER must print, given the three files alone, what the row prints, and end with
its status; nothing may be on standard error. Other arguments must print how it is called, with status 6, or 0 if they request that.

Prints a line for each row that fails, and last `N passed, M failed`. The exit status is 1 if a row failed. If CHECKER isn't built, which
`make checker` does, nothing is run, and a line says so.
"""
import os
import sys

from program import run
from rows import ROWS, octets_of, words_of
from verdict import not_run, report_named

# Rows whose output isn't read, or whose files are cut.
PASSED_OVER = ("output", "cuts")
USAGE = b"usage: once_check NETWORK TRAFFIC CERTIFICATE\n"
# Arguments that name no check, each with the status that they end with.
OTHERS = (((), 6), (("network.json",), 6), (("--help",), 0), (("-h",), 0), (("--version",), 6), (("a", "b"), 6), (("a", "b", "c", "d"), 6))


def checks(names):
    """Yields the rows with a check of three files, each with their names."""
    for name in names:
        row = os.path.join(ROWS, name)
        words = words_of(row)
        if words[:1] == ["check"] and len(words) == 4 and not any(os.path.exists(os.path.join(row, it)) for it in PASSED_OVER):
            yield name, row, words[1:]


def faults(program, files, folder, wanted, status):
    ran = run([program, *files], folder)
    if ran.returncode != status:
        yield f"status {ran.returncode} instead of {status}"
    if wanted is not None and ran.stdout != wanted:
        yield f"printed {ran.stdout[:200]!r} instead of {wanted[:200]!r}"
    if ran.stderr:
        yield f"printed {ran.stderr[:200]!r} on standard error"


def faults_of_usage(program, arguments, status):
    ran = run([program, *arguments], ROWS)
    if ran.returncode != status:
        yield f"status {ran.returncode} instead of {status}"
    if not ran.stdout.startswith(USAGE):
        yield f"printed {ran.stdout[:200]!r} instead of how it is called"


def cases(program, names):
    for name, row, files in checks(names):
        yield name, faults(program, files, row, octets_of(row, "stdout", None), int(octets_of(row, "status")))
    for arguments, status in OTHERS:
        yield " ".join(["once_check", *arguments]), faults_of_usage(program, arguments, status)


def main(arguments):
    if not arguments:
        sys.exit(__doc__)
    program = os.path.abspath(arguments[0])
    if not os.path.exists(program):
        not_run("checker.py", f"{arguments[0]} isn't built: run `make checker`")
        return 0
    return report_named(cases(program, arguments[1:] or sorted(os.listdir(ROWS))))


if __name__ == "__main__":
    sys.exit(main(sys.argv[1:]))
