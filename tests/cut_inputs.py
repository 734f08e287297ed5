#!/usr/bin/env python3
"""cut_inputs.py PROGRAM [--all] [--jobs N]: runs the program over inputs that end too soon.

Takes the rows that `refused_growth.py` takes, or with --all every row of `rows/` whose files have less than 20,000 octets in all, and cuts
each of a row's files at each of its octets: network, traffic, certificate, refutation, run, capture, schedule, stream, bundle; a
file that several rows have is cut in one of them. A file that was cut must be refused, or answered with `no` if it is a
certificate, a refutation or a run: status 1 or 2, one line with a number and a place, nothing on standard error. Some cuts leave a
whole file: those that remove only white space at the end of a document, lines after the last of a certificate, a refutation or a
run, those after a frame of a capture or a message of a stream, and all of a schedule, which has no end of its own. Then
any status of the table may come with what is printed with it. Each run has ten seconds and 64 MiB of address space. Prints each run
that behaves otherwise; last a line for each kind with how many runs ended with each status.
"""
import argparse
import collections
import concurrent.futures
import os
import re
import struct
import sys
import tempfile

from mutated_inputs import PLACE, PRINTED, SECONDS, SPACE, seeds
from program import DidNotEnd, run
from refused_growth import ROWS, SWEPT, octets_of

REFUSED = re.compile(rb"(refused|no) \d+" + PLACE)
MOST = 20_000


def frame_ends(octets):
    """After the header of a capture, and after each of its frames."""
    order = "<" if octets[:1] in (b"\xd4", b"\x4d") else ">"
    at = 24
    while at <= len(octets):
        yield at
        if at + 16 > len(octets):
            return
        at += 16 + struct.unpack(order + "I", octets[at + 8 : at + 12])[0]


def message_ends(octets):
    """Before the messages of a stream, and after each."""
    at = 0
    yield at
    while at + 4 <= len(octets):
        at += max(16, int.from_bytes(octets[at + 2 : at + 4], "big"))
        yield at


def whole_ends(kind, octets):
    """Where a file can be cut and is whole."""
    if kind == "capture":
        return set(frame_ends(octets))
    if kind == "stream":
        return set(message_ends(octets))
    if kind == "schedule":
        return set(range(len(octets)))
    if kind in ("certificate", "refutation", "run"):
        return {line.end() for line in re.finditer(rb"(?m)^end\n", octets)}
    return set(range(len(octets.rstrip()), len(octets)))


def try_one(program, folder, words, given, whole):
    """The status of a run over a cut file, and what is wrong with it, if anything is."""
    try:
        limited = ["prlimit", "--as=%d" % SPACE, program, *words]
        ran = run(limited, folder, given, SECONDS)
    except DidNotEnd:
        return None, "no end within %d s" % SECONDS
    form = PRINTED.get(ran.returncode) if whole else REFUSED if ran.returncode in (1, 2) else None
    if form is None or not form.fullmatch(ran.stdout) or ran.stderr:
        return ran.returncode, "status %d, %r, %r" % (ran.returncode, ran.stdout[:200], ran.stderr[:200])
    return ran.returncode, None


def cuts_of(program, kind, words, files, name):
    """All runs over a row with this file cut: their statuses, and what is wrong."""
    counts, faults = collections.Counter(), []
    octets, ends = files[name], whole_ends(kind, files[name])
    with tempfile.TemporaryDirectory(prefix="cut-") as folder:
        for own, held in files.items():
            with open(os.path.join(folder, own), "wb") as file:
                file.write(held)
        for end in range(len(octets)):
            with open(os.path.join(folder, name), "wb") as file:
                file.write(octets[:end])
            given = octets[:end] if name == "stdin" else b""
            status, fault = try_one(program, folder, words, given, end in ends)
            counts[status] += 1
            if fault:
                faults.append("%s of %s, cut after %d of %d octets: %s" % (name, " ".join(words) or "a bundle", end, len(octets), fault))
    return kind, counts, faults


def rows_of(words):
    """Of each kind, the rows whose files are cut."""
    chosen = [{octets_of(row, name) for name in os.listdir(os.path.join(ROWS, row))} for row in SWEPT]
    seen = set()
    for kind, rows in seeds().items():
        for row in rows:
            held, cut = set(row[1].values()), (kind, row[1][row[2]])
            if cut not in seen and (words.all and sum(map(len, held)) < MOST or any(held <= own for own in chosen)):
                seen.add(cut)
                yield kind, row


def main(words):
    program = os.path.abspath(words.program)
    counts, failed = collections.defaultdict(collections.Counter), 0
    with concurrent.futures.ThreadPoolExecutor(words.jobs) as pool:
        tasks = [pool.submit(cuts_of, program, kind, *row) for kind, row in rows_of(words)]
        for task in concurrent.futures.as_completed(tasks):
            kind, own, faults = task.result()
            counts[kind] += own
            failed += len(faults)
            for fault in faults:
                print(fault, flush=True)
    for kind, own in sorted(counts.items()):
        print("%-12s %s" % (kind, ", ".join("%s: %d" % it for it in sorted(own.items(), key=str))))
    print("%d cut, %d failed" % (sum(sum(own.values()) for own in counts.values()), failed))
    return 1 if failed else 0


if __name__ == "__main__":
    parser = argparse.ArgumentParser(description=__doc__, formatter_class=argparse.RawDescriptionHelpFormatter)
    parser.add_argument("program")
    parser.add_argument("--all", action="store_true")
    parser.add_argument("--jobs", type=int, default=os.cpu_count())
    sys.exit(main(parser.parse_args()))
