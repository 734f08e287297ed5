#!/usr/bin/env python3
"""progress.py PROGRAM: checks that `run`, `collect` and `audit` report their progress.

The capture and the stream of two rows come through a pipe, with a second or more between their pieces; the audit is of a certificate of
nearly as many lines as there may be, and is stopped for a second or more several times, as a fast machine may find all lines in
less. With `--progress` lines must come on standard error, whose figures rise and end within what there is, at most one a second;
without it none. The answer must be the same either way, and also if standard error is full.
Prints a line for each that fails, and last `N passed, M failed`; the exit status is 1 if one did. It takes half a minute.
"""
import json
import os
import re
import signal
import sys
import tempfile
import time

from program import NOWHERE, PIPE, start
from sample_networks import FILTERS, metered, paths
from verdict import report_named

TESTS = os.path.dirname(os.path.abspath(__file__))

PATHS = 1_996
PAUSE = 1.2
MOMENT = 0.1
STOPS = 4


def octets_of(*names):
    with open(os.path.join(TESTS, "rows", *names), "rb") as file:
        return file.read()


def ended(run, seconds):
    """Waits for the end of a run, and returns what it printed; one that takes longer is killed."""
    try:
        return run.communicate(timeout=seconds)
    finally:
        run.kill()


def piped(words, octets, errors=PIPE):
    """What a run prints whose standard input comes in three pieces, with its status."""
    began = time.monotonic()
    run = start(words, stdin=PIPE, stderr=errors)
    third = len(octets) // 3
    for piece in (octets[:third], octets[third:2 * third], octets[2 * third:]):
        run.stdin.write(piece)
        run.stdin.flush()
        time.sleep(PAUSE)
    said, reported = ended(run, 60)
    return said, reported or b"", run.returncode, time.monotonic() - began


def stopped(words, errors=PIPE):
    """What a run prints that is stopped several times, a moment after it began or went on, with its status."""
    began = time.monotonic()
    with tempfile.TemporaryFile() as answer:
        run = start(words, stdin=NOWHERE, stdout=answer, stderr=errors)
        for _ in range(STOPS):
            time.sleep(MOMENT)
            run.send_signal(signal.SIGSTOP)
            time.sleep(PAUSE)
            run.send_signal(signal.SIGCONT)
        _, reported = ended(run, 120)
        answer.seek(0)
        return answer.read(), reported or b"", run.returncode, time.monotonic() - began


def line_faults(reported, form, most, seconds):
    """Yields what is wrong with the lines that were reported."""
    lines = reported.decode().splitlines()
    figures = [re.fullmatch(form, line) for line in lines]
    if not lines or not all(figures):
        yield "printed %r in %.1f s" % (reported[:300], seconds)
        return
    figures = [int(found[1]) for found in figures]
    if figures != sorted(figures) or figures[-1] > most:
        yield "figures %r, of at most %d" % (figures, most)
    if len(lines) > seconds:
        yield "%d lines in %.1f s" % (len(lines), seconds)


def faults(call, words, form, most):
    """What is wrong with a call's lines and answers, by its words without the option."""
    plain = call(words)
    if plain[1]:
        yield "printed %r unasked" % plain[1][:200]
    if plain[2]:
        yield "answered %r, status %d" % (plain[0][:200], plain[2])
    said, reported, status, seconds = call([*words, "--progress"])
    yield from line_faults(reported, form, most, seconds)
    if (said, status) != (plain[0], plain[2]):
        yield "answered otherwise"
    with open("/dev/full", "wb") as full:
        said, _, status, _ = call([*words, "--progress"], full)
    if (said, status) != (plain[0], plain[2]):
        yield "answered otherwise where standard error is full"


def cases(program, folder):
    row = os.path.join(TESTS, "rows", "run-over-the-capture-of-pmacctd", "")
    capture = octets_of("run-over-the-capture-of-pmacctd", "capture.pcap")
    yield "run", faults(
        lambda words, errors=PIPE: piped(words, capture, errors),
        [program, "run", row + "network.json", row + "traffic.json", "/dev/stdin", row + "schedule"],
        r"once: (\d+) octets of /dev/stdin read", len(capture))
    stream = octets_of("stream-of-pmacctd", "stream.ipfix")
    yield "collect", faults(
        lambda words, errors=PIPE: piped(words, stream, errors),
        [program, "collect", os.path.join(TESTS, "rows", "stream-of-pmacctd", "network.json"), "/dev/stdin"],
        r"once: (\d+) octets of /dev/stdin read", len(stream))
    names = os.path.join(folder, "network.json"), os.path.join(folder, "traffic.json")
    for name, document in zip(names, (metered(FILTERS), paths(PATHS))):
        with open(name, "w") as file:
            json.dump(document, file)
    yield "audit", faults(
        stopped, [program, "audit", *names],
        r"once: (\d+) lines of a certificate found, of at most 1000000", 1_000_000)


def main(program):
    with tempfile.TemporaryDirectory() as folder:
        return report_named(cases(os.path.abspath(program), folder))


if __name__ == "__main__":
    if len(sys.argv) != 2:
        sys.exit(__doc__)
    sys.exit(main(sys.argv[1]))
