#!/usr/bin/env python3
"""What the commands cost, counted in instructions, so that neither the machine's load nor its clock matters.

usage: instructions.py PROGRAM [BEFORE] [--noted PAGE] [--most RATIO]

For each kind of work the instructions by the unit of PROGRAM, and beside them those of BEFORE, a program of another
commit, over the same files, or those that PAGE notes (docs/SPEED.md), with the ratio of both. Fails where a ratio is above
the most (1.10 where none is given). A unit's instructions are those that the larger of two inputs takes more, shared among
the units that it has more, so that the start and the reading of documents don't count.

  check     a line of a certificate: 20,000 and 40,000 splits of the sources, for one meter and one collector
  collect   a record of a stream by source, 69 to a message: 20,000 and 40,000 records
  replay    a packet that is counted, goes along ten collectors that aggregate and is tallied: 2,000 and 4,000 packets
  audit     a line of a certificate that is found, 125 filters that are split apart: 20 and 40 paths
  run       a packet of a capture that a meter with a timeout cache counts: 20,000 and 40,000 packets of 1,000 flows
  audit-1x64, audit-32x256, audit-62x256, check-1x64, check-32x256, check-62x256
            a line of the certificate of a path of 1 or 32 meters, or of two paths of 31, with 64 or 256 filters each, by networks in
            ascending order: what the command takes more than `lint` of the same documents
  audit-matches-1x64, audit-matches-4x256, check-matches-1x64, check-matches-4x256
            the same for a mediator of 1 or 4 collecting processes with 64 or 256 aggregations each, with matches on networks

It needs valgrind (Debian's package) on the PATH. Where that isn't there, the comparison with a page says so, and passes:
the gate makes it.
"""
import argparse
import os
import re
import shutil
import subprocess
import sys
import tempfile

TOP = os.path.dirname(os.path.dirname(os.path.abspath(__file__)))
sys.path[:0] = [os.path.join(TOP, "tests"), os.path.dirname(os.path.abspath(__file__))]

import audit
import collect
import lists
import replay
import run as metering
from check import document
from long_certificates import ROW, write_certificate

NETWORK, TRAFFIC = os.path.join(ROW, "network.json"), os.path.join(ROW, "traffic.json")


def instructions(words):
    """The instructions of a run that ends well."""
    ran = subprocess.run(["valgrind", "--tool=callgrind", "--callgrind-out-file=/dev/null", *words], capture_output=True)
    counted = re.search(rb"Collected : (\d+)", ran.stderr)
    if ran.returncode != 0 or counted is None:
        sys.exit("%s: status %d, %r" % (" ".join(words), ran.returncode, ran.stderr[-300:]))
    return int(counted.group(1))


# ---- inputs: the words of a run of this size, and its units

def checked(work, size):
    path = os.path.join(work, "certificate-%d.txt" % size)
    write_certificate(path, size)
    return ["check", NETWORK, TRAFFIC, path], 2 * size + 1


def collected(work, size):
    path = os.path.join(work, "stream-%d.ipfix" % size)
    with open(path, "wb") as file:
        file.writelines(collect.messages(size, 69))
    return ["collect", NETWORK, path], size


def replayed(work, size):
    path = os.path.join(work, "run-%d.txt" % size)
    with open(path, "w") as file:
        file.writelines(replay.chain(size)[0])
    return ["replay", *replay.chain_documents(work), path], size


def audited(work, size):
    network = document(work, "filters.json", audit.metered(audit.FILTERS))
    traffic = document(work, "paths-%d.json" % size, audit.paths(size))
    return ["audit", network, traffic], size * (4 * audit.FILTERS + 1)


def metered(work, size):
    folder = os.path.join(work, "capture-%d" % size)
    words = metering.write_inputs(folder, size, 1_000)
    return [words[0], *(os.path.join(folder, name) for name in words[1:])], size


def of_lists(meters, filters, command):
    """Returns what makes the words of `lint`, which counts no line, and then of the command over the same documents."""
    def made(work, size):
        words = lists.documents(work, meters, filters, "ascending")
        if size == 1:
            return ["lint", *words], 0
        more = [lists.certificate(work, meters, filters, "ascending")] if command == "check" else []
        return [command, *words, *more], lists.lines_of(meters, filters)
    return made


def of_matches(processes, matches, command):
    """The same of a mediator whose aggregations have matches."""
    def made(work, size):
        words = lists.mediator_documents(work, processes, matches)
        if size == 1:
            return ["lint", *words], 0
        more = [lists.mediator_certificate(work, processes, matches)] if command == "check" else []
        return [command, *words, *more], 2 * processes * matches - 1
    return made


SIZES = ((1, 64), (32, 256), (62, 256))
MATCHES = ((1, 64), (4, 256))
KINDS = {
    "check": (checked, 20_000),
    "collect": (collected, 20_000),
    "replay": (replayed, 2_000),
    "audit": (audited, 20),
    "run": (metered, 20_000),
    **{f"{command}-{meters}x{filters}": (of_lists(meters, filters, command), 1) for command in ("audit", "check") for meters, filters in SIZES},
    **{f"{command}-matches-{count}x{each}": (of_matches(count, each, command), 1) for command in ("audit", "check") for count, each in MATCHES},
}

# A row of a page's table: the kind of work, and a unit's instructions.
ROW_OF_PAGE = re.compile(r"^\| `([\w-]+)` \|[^|]*\| ([\d,]+) \|", re.MULTILINE)


def by_unit(program, small, large):
    """The instructions of a unit, from the words and units of two inputs."""
    more = instructions([program, *large[0]]) - instructions([program, *small[0]])
    return more / (large[1] - small[1])


def noted_in(page):
    """The instructions by the unit that a page notes, by the kind of work."""
    with open(page) as file:
        return {kind: int(number.replace(",", "")) for kind, number in ROW_OF_PAGE.findall(file.read())}


def befores(words, inputs):
    """What the other program takes, or the page notes, by the kind of work; nothing where neither is given."""
    if words.before:
        return {name: by_unit(words.before, *found) for name, found in inputs.items()}
    return noted_in(words.noted) if words.noted else {}


def main(words):
    parser = argparse.ArgumentParser(usage=__doc__.split("usage: ")[1].split("\n")[0])
    parser.add_argument("program")
    parser.add_argument("before", nargs="?")
    parser.add_argument("--noted")
    parser.add_argument("--most", type=float, default=1.10)
    words, dear = parser.parse_args(words), []
    if words.noted and not shutil.which("valgrind"):
        print("not run: instructions by unit of work: there is no valgrind (Debian's package valgrind)")
        return 0
    with tempfile.TemporaryDirectory() as work:
        inputs = {name: (make(work, size), make(work, 2 * size)) for name, (make, size) in KINDS.items()}
        before = befores(words, inputs)
        for name, found in inputs.items():
            now = by_unit(words.program, *found)
            if name not in before:
                print("%-20s %7.0f instructions" % (name, now))
                dear += [name] if words.noted else []
                continue
            print("%-20s %7.0f instructions, %7.0f before, %.2f times" % (name, now, before[name], now / before[name]))
            dear += [name] if now > words.most * before[name] else []
    if dear:
        print("more than %.2f times what it was, or not noted: %s" % (words.most, " ".join(dear)))
    return 1 if dear else 0


if __name__ == "__main__":
    sys.exit(main(sys.argv[1:]))
