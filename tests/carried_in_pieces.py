#!/usr/bin/env python3
"""carried_in_pieces.py PROGRAM: carries what is on a link in two pieces, cut at each octet.

In each network below, once its capture has been read and its caches have been emptied by lines of a schedule, all octets of the first
link are carried in two pieces, cut anywhere: the totals and the octets of the first link must be those of a schedule that
doesn't carry them. A piece of one octet more than there are must be refused with 802 at its line.

Prints `N runs, M failed`; the exit status is 1 if one failed.
"""
import os
import shutil
import sys
import tempfile

from program import run

HERE = os.path.dirname(os.path.abspath(__file__))
# The folders of the networks, how many packets their captures have, and how many records are in the first cache then.
NETWORKS = [
    ("../examples/mediator-by-network", 3, 3),
    ("rows/run-with-a-schedule", 3, 1),
    ("rows/run-with-ipv6-on-the-link", 1, 1),
    ("rows/run-with-an-aggregation", 2, 2),
]


def carried(program, folder, lines):
    """What the program prints and with which status, and the octets of each link."""
    for name in os.listdir(folder):
        if name.startswith("out"):
            os.remove(os.path.join(folder, name))
    with open(os.path.join(folder, "lines"), "w") as file:
        file.write("".join(line + "\n" for line in lines))
    words = ["network.json", "traffic.json", "capture.pcap", "lines", "--links", "out"]
    ended = run([program, "run", *words], folder)
    links = {}
    for name in sorted(os.listdir(folder)):
        if name.startswith("out"):
            with open(os.path.join(folder, name), "rb") as file:
                links[name] = file.read()
    return ended.returncode, ended.stdout.decode(), links


def faults(program, folder, packets, records):
    first = ["next"] * packets + ["expire 1 1"] * records
    wanted = carried(program, folder, first)
    if wanted[0]:
        yield "the schedule without pieces ends with %d: %r" % wanted[:2]
        return
    # Each line of the schedule has a message of its own; together they are what is on the first link then.
    octets = len(wanted[2]["out1"])
    for cut in range(1, octets):
        found = carried(program, folder, first + ["carry 1 %d" % cut, "carry 1 %d" % (octets - cut)])
        if found[:2] != wanted[:2] or found[2]["out1"] != wanted[2]["out1"]:
            yield "cut at %d: %r instead of %r" % (cut, found[:2], wanted[:2])
        else:
            yield None
    found = carried(program, folder, first + ["carry 1 %d" % (octets + 1)])
    line = len(first) + 1
    yield None if found[:2] == (2, "refused 802 line %d\n" % line) else "an octet more: %r" % (found[:2],)


def main(program):
    found = []
    for network, packets, records in NETWORKS:
        with tempfile.TemporaryDirectory() as folder:
            copy = os.path.join(folder, "network")
            shutil.copytree(os.path.join(HERE, network), copy)
            for fault in faults(os.path.abspath(program), copy, packets, records):
                found.append(fault)
                if fault:
                    print("%s: %s" % (network, fault))
    failed = len([fault for fault in found if fault])
    print("%d runs, %d failed" % (len(found), failed))
    return 1 if failed else 0


if __name__ == "__main__":
    if len(sys.argv) != 2:
        sys.exit(__doc__)
    sys.exit(main(sys.argv[1]))
