#!/usr/bin/env python3
"""refused_growth.py PROGRAM: runs the program with growths of its memory refused, by refused_growth.c, which `cc` builds.

Of each row the first growth is refused with all later ones, then the second with all later ones, and so on until a run meets no
refusal: each must print `memory 900` alone and end with status 4, except the last, which prints what the row does. Then the same with
each growth refused alone. What a refused run has put on a link is the beginning of what it should be, of whole messages. The same with
`--format json`, where a refusal is a JSON object, or the answer's own object lacks what explains it. Last, of certificates of one leaf and of 1,000,000 lines: as many growths are asked for; none is asked for from the first read of the
certificate on; and if all from there on would be refused the answer is the same. Prints a line for each run and ends with 1 if one
fails.
"""
import json
import os
import re
import shutil
import sys
import tempfile

from long_certificates import ROW, write_certificate
from program import run, succeed

HERE = os.path.dirname(os.path.abspath(__file__))
ROWS = os.path.dirname(ROW)

# Rows that take memory in each of the program's ways.
SWEPT = (
    "certificate-split-between-two-filters",
    "certificate-of-one-leaf-as-bundle",
    "two-packets-in-one-record",
    "two-packets-in-one-record-as-bundle",
    "run-with-a-malformed-line-after-its-steps",
    "stream-of-two-messages",
    "lint-of-a-network",
    "audit-that-finds-a-certificate",
    "refutation-where-nobody-collects-the-fallback",
    "refutation-where-nobody-collects-the-fallback-as-bundle",
    "certificate-found-as-bundle",
    "run-with-a-schedule",
    "run-with-a-bounded-cache",
    "run-with-an-aggregation",
    "join-of-certified-parts",
)

# Rows that are swept with `--format json` too.
IN_JSON = (
    "certificate-of-one-leaf-as-bundle",
    "stream-of-two-messages",
    "audit-that-finds-a-certificate",
    "refutation-where-nobody-collects-the-fallback",
)
# The members of an object that may be missing or empty if memory runs out for them alone.
BESIDE = ("explanation", "facts", "notes")


def octets_of(row, name, default=b""):
    path = os.path.join(ROWS, row, name)
    if not os.path.exists(path):
        return default
    with open(path, "rb") as file:
        return file.read()


class Shim:
    """The program with a library of this folder in front of the C library, which `cc` builds and which writes what it
    counted in a file that the variable `tells` names."""

    def __init__(self, program, folder, name, tells):
        self.program, self.name, self.tells = program, name, tells
        self.library, self.told = os.path.join(folder, name + ".so"), os.path.join(folder, name + ".txt")
        source = os.path.join(HERE, name + ".c")
        succeed(["cc", "-O2", "-Wall", "-shared", "-fPIC", "-o", self.library, source])

    def run(self, words, given=b"", folder=None, **asked):
        """What is printed, the status, and the numbers that the library wrote; its variables say what it shall do."""
        asked = {name: str(value) for name, value in asked.items() if value}
        how = {**os.environ, **asked, "LD_PRELOAD": self.library, self.tells: self.told}
        if os.path.exists(self.told):
            os.remove(self.told)
        done = run([self.program] + words, folder, given, env=how)
        try:
            with open(self.told) as file:
                told = list(map(int, file.read().split()))
        except FileNotFoundError:
            sys.exit("%s.so wasn't loaded, or the program didn't end by itself: %r" % (self.name, done))
        return done.stdout + done.stderr, done.returncode, told


def has_whole_messages(octets):
    """Whether these are whole messages (RFC 7011, section 3.1: the length follows the version)."""
    while octets:
        length = int.from_bytes(octets[2:4], "big")
        if not 16 <= length <= len(octets):
            return False
        octets = octets[length:]
    return True


def wrong_links(row, folder, is_whole, messages=True):
    """The links whose files don't hold what the row puts on them, or the beginning of it, of whole messages or just any,
    where the run was refused; the files go."""
    wrong = []
    for name in [name[:-4] for name in os.listdir(folder) if re.fullmatch(r"link\d+\.hex", name)]:
        wanted, path = bytes.fromhex(octets_of(row, name + ".hex").decode()), os.path.join(folder, name)
        held = octets_of(folder, name)
        is_beginning = wanted.startswith(held) and (has_whole_messages(held) or not messages)
        if not (held == wanted if is_whole else is_beginning):
            wrong.append(name)
        if os.path.exists(path):
            os.remove(path)
    return wrong


def sweep(shim, row, behind):
    """Whether each growth of a row that is refused is answered 900, and what to say of it."""
    words, given = octets_of(row, "words").decode().split(), octets_of(row, "stdin")
    wanted, number = (octets_of(row, "stdout"), int(octets_of(row, "status"))), 1
    with tempfile.TemporaryDirectory() as room:
        folder = shutil.copytree(os.path.join(ROWS, row), os.path.join(room, "row"))
        while True:
            said, status, told = shim.run(words, given, folder, GROWTH_REFUSED=number, GROWTHS_REFUSED=int(behind))
            is_answered = (said, status) == wanted
            links = wrong_links(row, folder, is_answered)
            if links:
                return False, "growth %d refused: wrong octets on %s" % (number, links)
            if told[0] < number:
                return number > 1 and is_answered, "%d growths" % told[0]
            if (said, status) != (b"memory 900\n", 4):
                return False, "growth %d refused: status %d, printed %r" % (number, status, said[:200])
            number += 1


def object_in(said):
    """Returns the JSON object in a line, or None if it is none."""
    try:
        found = json.loads(said) if said.endswith(b"\n") else None
    except ValueError:
        return None
    return found if isinstance(found, dict) else None


def is_object(said, status, wanted):
    """Returns whether this is the object of a refusal for lack of memory, or the wanted one, perhaps without what explains it."""
    found = object_in(said)
    if found is None or found.get("status") != status:
        return False
    if status == 4:
        return found["answer"] == "memory" and found["number"] == 900 and found.get("output", "memory 900\n") == "memory 900\n"
    return all(found.get(name) == value or name in BESIDE and not found[name] for name, value in wanted.items())


def sweep_json(shim, row, behind):
    """Returns whether each growth of a row that is refused is answered with an object, and what to say of it. The first ones are those of the
    arguments, after which the answer is still text."""
    words, given = ["--format", "json", *octets_of(row, "words").decode().split()], octets_of(row, "stdin")
    folder, number, is_read = os.path.join(ROWS, row), 1, False
    wanted = object_in(shim.run(words, given, folder)[0])
    while wanted is not None:
        said, status, told = shim.run(words, given, folder, GROWTH_REFUSED=number, GROWTHS_REFUSED=int(behind))
        if told[0] < number:
            return is_read and object_in(said) == wanted, "%d growths" % told[0]
        is_text = (said, status) == (b"memory 900\n", 4)
        is_read = is_read or not is_text
        if is_read and not is_object(said, status, wanted):
            return False, "growth %d refused: status %d, printed %r" % (number, status, said[:200])
        number += 1
    return False, "printed no object"


def lengths(shim, folder):
    """Whether memory grows before the first read of the certificate, whatever its length, and what to say of it."""
    counts = []
    for splits in (0, 499_999):
        path = os.path.join(folder, "certificate-%d.txt" % splits)
        write_certificate(path, splits)
        words = ["check", os.path.join(ROW, "network.json"), os.path.join(ROW, "traffic.json"), path]
        for watched in ("", path):
            said, status, told = shim.run(words, GROWTH_WATCHED=watched)
            if (said, status, told[1], told[2]) != (b"yes\n", 0, 0, int(watched == path)):
                return False, "%d splits: status %d, printed %r, counted %r" % (splits, status, said[:200], told)
            counts.append(told[0])
    return len(set(counts)) == 1 and counts[0] > 0, "%s growths, none once it is read" % " and ".join(map(str, sorted(set(counts))))


def is_right(name, outcome):
    """Whether a sweep of this name came out right; prints what is to say of it."""
    right, said = outcome
    print("%-84s %s%s" % (name, said, "" if right else "   FAILED"))
    return right


def main(program):
    if not shutil.which("cc"):
        print("there is no cc (Debian\'s packages gcc and libc6-dev): it builds refused_growth.c")
        return 1
    with tempfile.TemporaryDirectory() as folder:
        shim = Shim(os.path.abspath(program), folder, "refused_growth", "GROWTHS")
        runs = [
            (row + end, lambda row=row, behind=behind: sweep(shim, row, behind))
            for row in SWEPT
            for behind, end in ((True, ", and all later ones"), (False, ", alone"))
        ]
        runs += [
            (row + ", as JSON" + end, lambda row=row, behind=behind: sweep_json(shim, row, behind))
            for row in IN_JSON
            for behind, end in ((True, ", and all later ones"), (False, ", alone"))
        ]
        runs.append(("certificates of one leaf and of 1,000,000 lines", lambda: lengths(shim, folder)))
        failed = sum(not is_right(name, way()) for name, way in runs)
    return 1 if failed else 0


if __name__ == "__main__":
    if len(sys.argv) != 2:
        sys.exit(__doc__)
    sys.exit(main(sys.argv[1]))
