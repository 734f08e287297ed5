#!/usr/bin/env python3
"""failed_devices.py PROGRAM: runs the program with reads and writes failed, by failed_devices.c, which `cc` builds.

Of each row the first call that reads fails, alone and with all later ones, then the second, and so on until a run meets no
failure: each must print `device 901` alone and end with status 5, except the last, which prints what the row does. The same with
the calls that write: each must end with status 5, having printed `device 902` alone, or nothing but the beginning of the answer, if it
is the answer's own write that fails. What such a run has put on a link is the beginning of what it should be; if a read fails,
whole messages of it. With `--format json` an object says so of some rows, or its beginning is all that is printed. Prints a line for each run and ends with 1 if one fails.
"""
import os
import shutil
import sys
import tempfile

from refused_growth import IN_JSON, ROWS, SWEPT, Shim, is_right, object_in, octets_of, wrong_links

OPTION = ["--format", "json"]
# Rows that are swept with that option too: one with links besides those of refused growths.
SWEPT_IN_JSON = (*IN_JSON, "run-with-a-schedule")


def says_device(said, number, is_json):
    """Returns whether this is the line of a device that failed, or as JSON the object of it."""
    line = b"device %d\n" % number
    if not is_json:
        return said == line
    found = object_in(said) or {}
    return (found.get("answer"), found.get("number"), found.get("status"), found.get("output")) == ("device", number, 5, line.decode())


def ends_right(kind, said, status, wanted, is_json):
    """Whether a run of which a call failed ends as it should."""
    if status != 5:
        return False
    if kind == "READ":
        return says_device(said, 901, is_json)
    return says_device(said, 902, is_json) or (wanted.startswith(said) and said != wanted)


def sweep(shim, row, kind, behind, option=()):
    """Whether each call of this kind that fails is answered, and what to say of it."""
    words, given = [*option, *octets_of(row, "words").decode().split()], octets_of(row, "stdin")
    wanted, number = (octets_of(row, "stdout"), int(octets_of(row, "status"))), 1
    with tempfile.TemporaryDirectory() as room:
        folder = shutil.copytree(os.path.join(ROWS, row), os.path.join(room, "row"))
        if option:
            # (json_rows.py checks the object itself)
            wanted = shim.run(words, given, folder)[:2]
        while True:
            asked = {kind + "_FAILED": number, "DEVICES_FAILED": int(behind)}
            said, status, told = shim.run(words, given, folder, **asked)
            calls = told[kind == "WRITE"]
            is_whole = calls < number
            links = wrong_links(row, folder, is_whole, messages=kind == "READ")
            if links:
                return False, "call %d failed: wrong octets on %s" % (number, links)
            if is_whole:
                return number > 1 and (said, status) == wanted, "%d calls" % calls
            if not ends_right(kind, said, status, wanted[0], bool(option)):
                return False, "call %d failed: status %d, printed %r" % (number, status, said[:200])
            number += 1


def main(program):
    if not shutil.which("cc"):
        print("there is no cc (Debian\'s packages gcc and libc6-dev): it builds failed_devices.c")
        return 1
    failed = 0
    with tempfile.TemporaryDirectory() as folder:
        shim = Shim(os.path.abspath(program), folder, "failed_devices", "DEVICES")
        swept = [(row, (), "") for row in SWEPT] + [(row, OPTION, " as JSON") for row in SWEPT_IN_JSON]
        for row, option, form in swept:
            for kind in ("READ", "WRITE"):
                for behind, end in ((False, "alone"), (True, "and all later ones")):
                    failed += not is_right("%s%s, each %s, %s" % (row, form, kind.lower(), end), sweep(shim, row, kind, behind, option))
    return 1 if failed else 0


if __name__ == "__main__":
    if len(sys.argv) != 2:
        sys.exit(__doc__)
    sys.exit(main(sys.argv[1]))
