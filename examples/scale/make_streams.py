#!/usr/bin/env python3
"""make_streams.py FOLDER [--streams N] [--records N] [--sources N] [--seed N]

Writes FOLDER/parts/0001.ipfix and so on, each a stream of IPFIX messages (RFC 7011) of an observation domain of its own
with the given number of flow records, whose sources and counts are drawn with the seed; FOLDER/network.json, whose report is by source;
and FOLDER/expected.txt, the totals of all of them as they were added up while they were made.
"""
import argparse
import os
import random
import shutil
import struct

HERE = os.path.dirname(os.path.abspath(__file__))
NETWORK = os.path.join(HERE, os.pardir, "one-meter-one-collector", "network.json")
# Template 256: sourceIPv4Address, octetDeltaCount and packetDeltaCount, 4, 8 and 8 octets.
TEMPLATE = struct.pack(">10H", 2, 20, 256, 3, 8, 4, 1, 8, 2, 8)
# So a message has 1,240 octets or so, and fits into one of Ethernet's frames.
RECORDS_A_MESSAGE = 60


def drawn(draw, sources):
    """A record's source, octets and packets."""
    packets = draw.randrange(1, 100)
    return 0x0A000000 + draw.randrange(sources), packets * draw.randrange(40, 1_501), packets


def messages(domain, records):
    """The messages with these records, the first one with the template before them."""
    for done in range(0, max(len(records), 1), RECORDS_A_MESSAGE):
        data = b"".join(struct.pack(">IQQ", *record) for record in records[done:done + RECORDS_A_MESSAGE])
        sets = (b"" if done else TEMPLATE) + struct.pack(">HH", 256, 4 + len(data)) + data
        yield struct.pack(">HHIII", 10, 16 + len(sets), 0, done, domain) + sets


def totals_text(totals):
    yield "keys %d\n" % len(totals)
    for source in sorted(totals):
        octets = ".".join(map(str, source.to_bytes(4, "big")))
        yield "%s packets %d octets %d\n" % (octets, totals[source][1], totals[source][0])
    yield "unassigned 0\ngaps 0\nskipped 0\n"


def main():
    parser = argparse.ArgumentParser(usage=__doc__.split("\n")[0], description=__doc__.split("\n\n")[1])
    parser.add_argument("folder")
    parser.add_argument("--streams", type=int, default=200)
    parser.add_argument("--records", type=int, default=30_000)
    parser.add_argument("--sources", type=int, default=1_000)
    parser.add_argument("--seed", type=int, default=1)
    words = parser.parse_args()
    if not 1 <= words.streams <= 9_999 or words.records < 1 or not 1 <= words.sources <= 2**24:
        parser.error("1 to 9,999 streams, 1 record or more, 1 to 16,777,216 sources")
    parts, totals = os.path.join(words.folder, "parts"), {}
    os.makedirs(parts)
    shutil.copyfile(NETWORK, os.path.join(words.folder, "network.json"))
    for domain in range(1, words.streams + 1):
        draw = random.Random("%d %d" % (words.seed, domain))
        records = [drawn(draw, words.sources) for _ in range(words.records)]
        for source, octets, packets in records:
            before = totals.get(source, (0, 0))
            totals[source] = before[0] + octets, before[1] + packets
        with open(os.path.join(parts, "%04d.ipfix" % domain), "wb") as file:
            file.writelines(messages(domain, records))
    with open(os.path.join(words.folder, "expected.txt"), "w", encoding="utf-8") as file:
        file.writelines(totals_text(totals))


if __name__ == "__main__":
    main()
