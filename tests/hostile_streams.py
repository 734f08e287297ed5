#!/usr/bin/env python3
"""hostile_streams.py PROGRAM: streams that are made to cost time or memory, collected by the program.

Each is collected as it is and twice as long, in 64 MiB of address space; both answers must be right, and the minimum CPU time of
five runs of the second at most 2.5 times that of the first. A stream whose templates don't fit must be answered 900. Prints a
line for each and ends with 1 if one fails.
"""
import os
import random
import struct
import sys
import tempfile

from program import DidNotEnd, cpu_seconds, run

NETWORK = os.path.join(os.path.dirname(os.path.abspath(__file__)), "rows", "stream-of-two-messages", "network.json")
SPACE, ROUNDS = 64 * 2**20, 5
PROTOCOL = struct.pack(">2H", 4, 1)
NOTHING = "keys 0\nunassigned 0\ngaps %d\nskipped %d\n"


def message(sets, number=0, domain=0):
    return struct.pack(">HHIII", 10, 16 + len(sets), 0, number % 2**32, domain) + sets


def a_set(number, content):
    return struct.pack(">HH", number, 4 + len(content)) + content


def template(number, count, fields):
    return struct.pack(">HH", number, count) + fields


def wide_templates(times):
    """As many fields as a message holds, declared again and again under the same id, and a record of them each time."""
    count = (65535 - 16 - 4 - 4) // 4
    declared = message(a_set(2, template(256, count, PROTOCOL * count)))
    for turn in range(500 * times):
        yield declared[:8] + struct.pack(">I", turn) + declared[12:]
        yield message(a_set(256, bytes(count)), turn)
    yield NOTHING % (0, 500 * times)


def wide_withdrawn(times):
    """The same template, declared and withdrawn again and again."""
    count = (65535 - 16 - 4 - 4 - 8) // 4
    for _ in range(500 * times):
        yield message(a_set(2, template(256, count, PROTOCOL * count)) + a_set(2, template(256, 0, b"")))
    yield NOTHING % (0, 0)


def many_templates(times):
    """Templates of many ids, and then a record of each, the last one first."""
    ids = list(range(256, 256 + 30_000 * times))
    random.Random(7011).shuffle(ids)
    for first in range(0, len(ids), 1_000):
        yield message(a_set(2, b"".join(template(number, 1, PROTOCOL) for number in ids[first:first + 1_000])))
    for first in range(0, len(ids), 1_000):
        yield message(b"".join(a_set(number, b"\6") for number in reversed(ids[first:first + 1_000])), first)
    yield NOTHING % (0, len(ids))


def many_domains(times):
    """A template and a record in each of many domains, in no order."""
    sets, count = a_set(2, template(256, 1, PROTOCOL)) + a_set(256, b"\6"), 40_000 * times
    for domain in random.Random(7011).sample(range(2**32), count):
        yield message(sets, 0, domain)
    yield NOTHING % (0, count)


def short_records(times):
    """Sets full of records of one octet."""
    yield message(a_set(2, template(256, 1, PROTOCOL)))
    full = 65535 - 16 - 4
    for turn in range(200 * times):
        yield message(a_set(256, bytes(full)), turn * full)
    yield NOTHING % (0, 200 * times * full)


def short_sets(times):
    """Sets of one record of one octet each."""
    yield message(a_set(2, template(256, 1, PROTOCOL)))
    count = (65535 - 16) // 5
    for turn in range(200 * times):
        yield message(a_set(256, b"\6") * count, turn * count)
    yield NOTHING % (0, 200 * times * count)


def empty_withdrawals(times):
    """Withdrawals of what isn't there, of one id and of all."""
    one, every = template(300, 0, b""), template(2, 0, b"")
    for turn in range(200 * times):
        yield message(a_set(2, one * 8_000 + every * 8_000))
        yield message(a_set(3, one * 8_000 + template(3, 0, b"") * 8_000))
    yield NOTHING % (0, 0)


def withdrawals_beside_many(times):
    """Withdrawals of what isn't there beside 10,000 templates that are."""
    for first in range(256, 10_256, 1_000):
        yield message(a_set(2, b"".join(template(first + number, 1, PROTOCOL) for number in range(1_000))))
    for _ in range(200 * times):
        yield message(a_set(2, template(60_000, 0, b"") * 16_000))
    yield NOTHING % (0, 0)


def wrong_numbers(times):
    """Messages without sets, each with another sequence number than the one before."""
    count = 1_000_000 * times
    for turn in range(count):
        yield message(b"", turn)
    yield NOTHING % (count - 1, 0)


STREAMS = (wide_templates, wide_withdrawn, many_templates, many_domains, short_records, short_sets, empty_withdrawals,
           withdrawals_beside_many, wrong_numbers)


def too_many_templates():
    """Templates of as many fields as a message holds, each under an id of its own."""
    count = (65535 - 16 - 4 - 4) // 4
    for number in range(256, 2_256):
        yield message(a_set(2, template(number, count, PROTOCOL * count)))
    yield "memory 900\n"


def seconds(program, path, text, status=0):
    before = cpu_seconds()
    ran = run([program, "collect", NETWORK, path], seconds=60, space=SPACE)
    taken = cpu_seconds() - before
    if ran.stdout.decode() != text or ran.returncode != status:
        raise ValueError("status %d, printed %r instead of %r" % (ran.returncode, ran.stdout[:100], text))
    return taken


def measured(program, made, status=0):
    *octets, text = made
    with tempfile.NamedTemporaryFile(suffix=".ipfix") as file:
        file.writelines(octets)
        file.flush()
        return min(seconds(program, file.name, text, status) for _ in range(ROUNDS))


def growth(program, stream):
    """Whether the time of a stream grows as it should, and what to say of it."""
    first, second = (measured(program, stream(times)) for times in (1, 2))
    return second <= 2.5 * first, "%.3f s, twice as long %.3f s" % (first, second)


def starved(program, stream):
    return True, "%.3f s, out of memory" % measured(program, stream(), 4)


def main(program):
    failed = 0
    for stream, way in [(stream, growth) for stream in STREAMS] + [(too_many_templates, starved)]:
        try:
            right, said = way(program, stream)
        except (ValueError, DidNotEnd) as fault:
            right, said = False, str(fault)
        failed += not right
        print("%-24s %s%s" % (stream.__name__.replace("_", " "), said, "" if right else "   FAILED"))
    return 1 if failed else 0


if __name__ == "__main__":
    if len(sys.argv) != 2:
        sys.exit(__doc__)
    sys.exit(main(os.path.abspath(sys.argv[1])))
