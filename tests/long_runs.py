#!/usr/bin/env python3
"""long_runs.py PROGRAM [FRAMES]: runs over captures that come through a pipe, and runs that are broken off.

First a capture of FRAMES frames (50,000,000 by default) of 10,000 flows through a pipe, in 32 MiB of address space: the totals must be
the sums. Then runs of a million frames that don't reach their end: ended by SIGTERM in the middle; with standard output closed
before the answer; with links on a disk that is full (/dev/full); with a pipe that ends in the middle of a record. None of them may
leave anything on standard output that looks like an answer, and what is answered must be its refusal. Prints a line for each and
ends with 1 if one fails.
"""
import json
import os
import signal
import sys
import tempfile
import time

from program import PIPE, start
from sample_networks import TRAFFIC, network, write_capture

FLOWS = 10_000
SPACE = 32 << 20
MILLION = 1_000_000


def documents(folder):
    """A meter with a timeout cache, and a collector that reports by its key."""
    for name, value in (("network.json", network()), ("traffic.json", TRAFFIC)):
        with open(os.path.join(folder, name), "w") as file:
            json.dump(value, file)
    open(os.path.join(folder, "schedule"), "w").close()


def capture(folder):
    """A capture's header, and one round of frames over all flows, which can be repeated."""
    path = os.path.join(folder, "round.pcap")
    write_capture(path, FLOWS, FLOWS)
    with open(path, "rb") as file:
        octets = file.read()
    return octets[:24], octets[24:]


def begin(program, folder, *more, **how):
    words = [program, "run", "network.json", "traffic.json", "/dev/stdin", "schedule", *more]
    return start(words, folder, SPACE, stdin=PIPE, **how)


def feed(ongoing, octets, rounds):
    """Gives a run this many rounds of frames; returns whether it took them all."""
    try:
        ongoing.stdin.write(octets[0])
        for _ in range(rounds):
            ongoing.stdin.write(octets[1])
        ongoing.stdin.flush()
    except BrokenPipeError:
        return False
    return True


def ended(ongoing):
    try:
        ongoing.stdin.close()
    except BrokenPipeError:
        pass
    said = ongoing.stdout.read() if ongoing.stdout else b""
    return said, ongoing.wait(timeout=600)


def whole(program, folder, octets, frames):
    ongoing = begin(program, folder)
    began = time.monotonic()
    feed(ongoing, octets, frames // FLOWS)
    said, status = ended(ongoing)
    lines = said.decode().splitlines()
    wanted = " packets %d octets %d" % (frames // FLOWS, frames // FLOWS * 46)
    right = status == 0 and lines[0] == "keys %d" % FLOWS and all(line.endswith(wanted) for line in lines[1 : FLOWS + 1])
    return right and lines[-1] == "skipped other 0 malformed 0", "%d frames in %.1f s" % (frames, time.monotonic() - began)


def terminated(program, folder, octets):
    ongoing = begin(program, folder)
    feed(ongoing, octets, MILLION // FLOWS)
    ongoing.send_signal(signal.SIGTERM)
    said, status = ended(ongoing)
    return (said, status) == (b"", -signal.SIGTERM), "status %d, printed %r" % (status, said[:80])


def unread(program, folder, octets):
    near, far = os.pipe()
    os.close(near)
    ongoing = begin(program, folder, stdout=far)
    os.close(far)
    feed(ongoing, octets, MILLION // FLOWS)
    _, status = ended(ongoing)
    return status in (5, -signal.SIGPIPE), "status %d" % status


def full(program, folder, octets):
    link = os.path.join(folder, "full1")
    os.symlink("/dev/full", link)
    ongoing = begin(program, folder, "--links", "full")
    feed(ongoing, octets, MILLION // FLOWS)
    said, status = ended(ongoing)
    return (said, status) == (b"device 902\n", 5), "status %d, printed %r" % (status, said[:80])


def broken_off(program, folder, octets):
    ongoing = begin(program, folder)
    feed(ongoing, (octets[0], octets[1][:-1]), 1)
    said, status = ended(ongoing)
    at = len(octets[0]) + len(octets[1]) // FLOWS * (FLOWS - 1)
    return (said, status) == (b"refused 703 octet %d\n" % at, 2), "status %d, printed %r" % (status, said[:80])


def main(program, frames):
    failed = 0
    with tempfile.TemporaryDirectory() as folder:
        documents(folder)
        octets = capture(folder)
        ways = [
            ("through a pipe", lambda: whole(program, folder, octets, frames)),
            ("ended by SIGTERM", lambda: terminated(program, folder, octets)),
            ("with nobody to read the answer", lambda: unread(program, folder, octets)),
            ("with links on a full disk", lambda: full(program, folder, octets)),
            ("of a pipe that breaks off", lambda: broken_off(program, folder, octets)),
        ]
        for name, way in ways:
            right, said = way()
            failed += not right
            print("a run %-32s %s%s" % (name, said, "" if right else "   FAILED"), flush=True)
    return 1 if failed else 0


if __name__ == "__main__":
    if len(sys.argv) not in (2, 3):
        sys.exit(__doc__)
    sys.exit(main(os.path.abspath(sys.argv[1]), int(sys.argv[2]) if len(sys.argv) == 3 else 50 * MILLION))
