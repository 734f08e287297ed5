#!/usr/bin/env python3
"""hostile_keys.py PROGRAM [FLOWS]: keys that were chosen to be slow to find, metered and collected by the program.

A hash with a fixed seed can be made to collide by anyone who knows it: the one of the library of maps is the same for all IPv6 addresses
in one prefix. A capture has FLOWS packets (20,000 by default), each of a flow of its own with a source there, another as many
with sources elsewhere. Both are metered by an unbounded and by a bounded cache, and what that puts on its link is collected. The
minimum CPU time of three runs over the first must be at most 2.5 times that over the second. Prints a line for each and ends
with 1 if one fails.
"""
import json
import os
import struct
import sys
import tempfile

from program import timed
from sample_networks import TRAFFIC, network

# The prefixes of 64 bits: that one, and one for documents (RFC 3849).
PREFIXES = {"chosen": 0x9E37_79B9_7F4A_7C15, "other": 0x2001_0DB8_0000_0000}
MOST = 2.5


def write_capture(path, prefix, flows):
    """A capture of packets of raw IP, one of each flow."""
    with open(path, "wb") as file:
        file.write(struct.pack(">IHHIIII", 0xA1B2_C3D4, 2, 4, 0, 0, 1 << 18, 101))
        for flow in range(flows):
            source = (prefix << 64 | flow).to_bytes(16, "big")
            packet = struct.pack(">IHBB", 6 << 28, 0, 59, 64) + source + bytes(15) + b"\1"
            file.write(struct.pack(">4I", 1, 0, len(packet), len(packet)) + packet)


def write_documents(folder, most):
    document = json.dumps(network(most)).replace("sourceIPv4Address", "sourceIPv6Address")
    for name, text in (("network.json", document), ("traffic.json", json.dumps(TRAFFIC)), ("schedule", "")):
        with open(os.path.join(folder, name), "w") as file:
            file.write(text)


def least(program, words, folder):
    """The least processor time of three runs."""
    return min(timed([program, *words], folder)[0] for _ in range(3))


def compare(program, name, words_of, folder):
    took = {which: least(program, words_of(which), folder) for which in PREFIXES}
    right = took["chosen"] <= MOST * took["other"] + 0.05
    print("%-44s %.3f s, other keys %.3f s%s" % (name, took["chosen"], took["other"], "" if right else "   FAILED"))
    return right


def main(program, flows):
    program, right = os.path.abspath(program), []
    with tempfile.TemporaryDirectory() as folder:
        for which, prefix in PREFIXES.items():
            write_capture(os.path.join(folder, which), prefix, flows)
        for name, most in (("a cache without a bound", None), ("a cache with a bound", 65_536)):
            write_documents(folder, most)
            words = ["run", "network.json", "traffic.json"]
            right.append(compare(program, name, lambda which: [*words, which, "schedule", "--links", which + "-"], folder))
        right.append(compare(program, "totals", lambda which: ["collect", "network.json", which + "-1"], folder))
    return 0 if all(right) else 1


if __name__ == "__main__":
    if len(sys.argv) not in (2, 3):
        sys.exit(__doc__)
    sys.exit(main(sys.argv[1], int(sys.argv[2]) if len(sys.argv) > 2 else 20_000))
