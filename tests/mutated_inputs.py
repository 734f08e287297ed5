#!/usr/bin/env python3
"""mutated_inputs.py PROGRAM [--each N] [--seed N] [--jobs N] [KIND..]: runs the program over inputs that were changed.

Takes the rows of `rows/`, and in each of N runs of a kind (200 by default) changes one file of a row: some octets become others, go, come, or come
twice, numbers become others, lines or pieces change places, or it is cut. Kinds are network, traffic, certificate, refutation, run,
capture, schedule, stream and bundle. Each run must end by itself, within ten seconds and a microsecond for each octet, in
64 MiB of address space, with a status of the table and what is printed with it: 0 an answer, 1 `no N PLACE` or a refutation,
2 `refused N PLACE`, 3 `unknown 601`, and nothing on standard error. Devices (5) don't fail here, and the arguments parse (no 6). Memory (4)
fails only if an audit comes to a refutation of more than 500,000 steps, which has 1,000,000 at most: it must be written in
96 MiB. Prints each run that doesn't, and keeps its files in a folder that it names; last a line for each kind with how many runs
ended with each status.
"""
import argparse
import collections
import concurrent.futures
import os
import random
import re
import shutil
import sys
import tempfile

from program import DidNotEnd, run

HERE = os.path.dirname(os.path.abspath(__file__))
ROWS = os.path.join(HERE, "rows")
# For each command what its files are, in the order of its words.
FILES = {
    "audit": ["network", "traffic"],
    "check": ["network", "traffic", "certificate"],
    "confirm": ["network", "traffic", "refutation"],
    "replay": ["network", "traffic", "run"],
    "run": ["network", "traffic", "capture", "schedule"],
    "collect": ["network", "stream"],
    "lint": ["network"],
    "join": ["network", "traffic", "parts"],
}
KINDS = ["network", "traffic", "certificate", "refutation", "run", "capture", "schedule", "stream", "bundle", "parts"]
SPACE, SECONDS = 64 << 20, 10
# What the longest refutations take.
MORE_SPACE, MANY_STEPS = 96 << 20, 500_000
NUMBERS = [b"0", b"1", b"255", b"256", b"65535", b"65536", b"4294967295", b"4294967296", b"18446744073709551615",
           b"18446744073709551616", b"340282366920938463463374607431768211456", b"-1", b"01", b"1e9", b"0.5"]
PLACE = rb"( line \d+| octet \d+| part \d+| /[^\n]*| [0-9. ]+| )?\n"
# What may be printed, by the status.
PRINTED = {
    0: re.compile(rb"(ok\n|yes\n|once-certificate [12]\n[^\0]*end\n|(refuted\nrun\n)?keys \d+\n[^\0]*)"),
    1: re.compile(rb"(no \d+" + PLACE + rb"|once-refutation 2\n[^\0]*end\n)"),
    2: re.compile(rb"refused \d+" + PLACE),
    3: re.compile(rb"unknown 601\n"),
}


def seeds():
    """By kind: the words of a row's call, its files' octets, and which of them is to be changed."""
    found = collections.defaultdict(list)
    for row in sorted(os.listdir(ROWS)):
        folder = os.path.join(ROWS, row)
        held = {}
        for name in os.listdir(folder):
            with open(os.path.join(folder, name), "rb") as file:
                held[name] = file.read()
        words = held.get("words", b"").decode().split()
        if "stdin" in held and not words:
            found["bundle"].append(([], {"stdin": held["stdin"]}, "stdin"))
        kinds = FILES.get(words[0] if words else "", [])
        names = words[1 : 1 + len(kinds)]
        if kinds and len(names) == len(kinds) and all(name in held for name in names) and sum(map(len, held.values())) < 100_000:
            for kind, name in zip(kinds, names):
                found[kind].append((words[: 1 + len(kinds)], {name: held[name] for name in names}, name))
    return found


def cut(chance, octets):
    return octets[: chance.randrange(len(octets) + 1)]


def octets_changed(chance, octets):
    changed = bytearray(octets)
    for _ in range(chance.choice([1, 1, 2, 4, 16])):
        if changed:
            changed[chance.randrange(len(changed))] = chance.choice([chance.randrange(256), 0, 255, changed[0]])
    return bytes(changed)


def piece(chance, octets):
    start = chance.randrange(len(octets) + 1)
    return start, min(len(octets), start + chance.choice([1, 1, 2, 4, 8, 16, 64, 256]))


def piece_gone(chance, octets):
    start, end = piece(chance, octets)
    return octets[:start] + octets[end:]


def piece_twice(chance, octets):
    start, end = piece(chance, octets)
    times = chance.choice([1, 1, 1, 2, 100])
    return octets[:end] + octets[start:end] * times + octets[end:]


def piece_moved(chance, octets):
    start, end = piece(chance, octets)
    rest = octets[:start] + octets[end:]
    to = chance.randrange(len(rest) + 1)
    return rest[:to] + octets[start:end] + rest[to:]


def number_changed(chance, octets):
    places = list(re.finditer(rb"\d+", octets))
    if not places:
        return octets_changed(chance, octets)
    place = chance.choice(places)
    number = int(place[0]) if len(place[0]) < 40 else 0
    new = chance.choice(NUMBERS + [b"%d" % (number + 1), b"%d" % max(0, number - 1), b"%d" % (number * 2)])
    return octets[: place.start()] + new + octets[place.end() :]


def line_moved(chance, octets):
    lines = octets.splitlines(keepends=True)
    if len(lines) < 2:
        return piece_moved(chance, octets)
    line = lines.pop(chance.randrange(len(lines)))
    lines.insert(chance.randrange(len(lines) + 1), line)
    return b"".join(lines)


def word_changed(chance, octets):
    """A word of the text instead of another of its words."""
    words = list(re.finditer(rb"\"[^\"]*\"|[A-Za-z0-9_.:/-]+|[{}\[\],]", octets))
    if not words:
        return octets_changed(chance, octets)
    place = chance.choice(words)
    return octets[: place.start()] + chance.choice(words)[0] + octets[place.end() :]


CHANGES = [cut, octets_changed, octets_changed, piece_gone, piece_twice, piece_moved, number_changed, number_changed, line_moved,
           word_changed, word_changed]


def mutated(chance, octets):
    for _ in range(chance.choice([1, 1, 1, 2, 3])):
        octets = chance.choice(CHANGES)(chance, octets)
    return octets


def run_in(space, program, words, given, folder, seconds):
    limited = ["prlimit", "--as=%d" % space, program, *words]
    return run(limited, folder, given, seconds)


def try_one(program, seed, given):
    """The status of a run over a changed row, and what is wrong with it, if anything is."""
    words, files, name = given
    chance = random.Random(seed)
    files = {**files, name: mutated(chance, files[name])}
    folder = tempfile.mkdtemp(prefix="mutated-")
    for own, octets in files.items():
        with open(os.path.join(folder, own), "wb") as file:
            file.write(octets)
    seconds = SECONDS + sum(map(len, files.values())) / 1e6
    try:
        run = run_in(SPACE, program, words, files.get("stdin", b""), folder, seconds)
        if run.returncode == 4:
            longest = run_in(MORE_SPACE, program, words, files.get("stdin", b""), folder, seconds)
            run = longest if longest.stdout.count(b"\n") > MANY_STEPS else run
    except DidNotEnd:
        return None, "%s %s: no end within %.1f s" % (folder, words, seconds)
    form = PRINTED.get(run.returncode)
    if form is None or not form.fullmatch(run.stdout) or run.stderr:
        return run.returncode, "%s %s: status %d, %r, %r" % (folder, words, run.returncode, run.stdout[:200], run.stderr[:200])
    shutil.rmtree(folder)
    return run.returncode, None


def main(words):
    program, found = os.path.abspath(words.program), seeds()
    failed = 0
    with concurrent.futures.ThreadPoolExecutor(words.jobs) as pool:
        for kind in words.kinds or KINDS:
            chance = random.Random("%s %d" % (kind, words.seed))
            tasks = [(chance.randrange(2**60), chance.choice(found[kind])) for _ in range(words.each)]
            counts = collections.Counter()
            for status, fault in pool.map(lambda task: try_one(program, *task), tasks):
                counts[status] += 1
                if fault:
                    failed += 1
                    print(fault, flush=True)
            print("%-12s %s" % (kind, ", ".join("%s: %d" % it for it in sorted(counts.items(), key=str))), flush=True)
    print("%d failed" % failed)
    return 1 if failed else 0


if __name__ == "__main__":
    parser = argparse.ArgumentParser(description=__doc__, formatter_class=argparse.RawDescriptionHelpFormatter)
    parser.add_argument("program")
    parser.add_argument("kinds", nargs="*", choices=[*KINDS, []])
    parser.add_argument("--each", type=int, default=200)
    parser.add_argument("--seed", type=int, default=1)
    parser.add_argument("--jobs", type=int, default=os.cpu_count())
    sys.exit(main(parser.parse_args()))
