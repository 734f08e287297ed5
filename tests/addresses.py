#!/usr/bin/env python3
"""Compares which texts the program reads as IPv6 addresses, and as which, with Python's `ipaddress`.

usage: addresses.py PROGRAM [--spellings N] [--seed S]

Addresses are drawn at random and spelled in many ways: digits of either case, leading zeros, `::` instead of any groups of zeros, a
dotted quad at the end. A traffic document has a class for each, whose region is that spelling, and a run has a packet for each,
in the written form of what `ipaddress` reads: the program must find every packet in its class, and every other packet in none. Then
spellings are changed at a character: those that `ipaddress` still reads are tried in the same way, and each of the others
must be refused with 302. The last line is `N passed, N failed`.
"""
import argparse
import ipaddress
import json
import os
import random
import sys
import tempfile

from program import run

CLASSES = 250
NETWORK = {
    "devices": [
        {"name": "c1", "config": {"ietf-ipfix-psamp:ipfix": {"collectingProcess": [{"name": "cp"}]}}},
    ],
    "links": [],
    "report": {"device": "c1", "collectingProcess": "cp", "key": [{"ieName": "sourceIPv6Address"}]},
}


def address(draw):
    """Eight groups, of which some beside one another are often zeros."""
    groups = [draw.choice([0, draw.randrange(16), draw.randrange(65536)]) for _ in range(8)]
    begin, end = sorted(draw.randrange(9) for _ in range(2))
    return [0 if begin <= at < end else group for at, group in enumerate(groups)]


def spelled(draw, groups):
    """A spelling of the address."""
    digits = lambda group: draw.choice([str.upper, str.lower])(f"{group:0{draw.choice([1, 1, 2, 3, 4])}x}")
    quad = draw.random() < 0.3
    last = 6 if quad else 8
    words = [digits(group) for group in groups[:last]]
    if quad:
        words.append(".".join(str(octet) for group in groups[6:] for octet in divmod(group, 256)))
    runs = [(begin, end) for begin in range(last) for end in range(begin + 1, last + 1) if not any(groups[begin:end])]
    if runs and draw.random() < 0.8:
        begin, end = draw.choice(runs)
        return ":".join(words[:begin]) + "::" + ":".join(words[end:])
    return ":".join(words)


def changed(draw, text):
    at = draw.randrange(len(text) + 1)
    return text[:at] + draw.choice([":", "::", ".", "0", "f", "G", "g", " ", "%", "/", "-"]) + text[at + draw.randrange(2) :]


def read(text):
    """The address that Python reads; None where it reads none, or one of a zone."""
    try:
        return None if "%" in text else int(ipaddress.IPv6Address(text))
    except ValueError:
        return None


def written(value):
    return ":".join(f"{value >> 16 * (7 - at) & 0xffff:x}" for at in range(8))


def classes(texts):
    return {"classes": [{"name": f"n{at}", "region": {"sourceIPv6Address": text}, "paths": [[]]} for at, text in enumerate(texts)]}


def replayed(program, texts, packets):
    """What the program answers about packets, each of them (class, source)."""
    with tempfile.TemporaryDirectory() as work:
        lines = [f"packet {number} 1 0.0.0.0 0.0.0.0 0 0 0 0 6 {written(source)} {written(0)} 1" for number, source in packets]
        for name, text in (
            ("network.json", json.dumps(NETWORK)),
            ("traffic.json", json.dumps(classes(texts))),
            ("run.txt", "\n".join(["once-run 2", *lines, "end", ""])),
        ):
            with open(os.path.join(work, name), "w", encoding="utf-8") as file:
                file.write(text)
        ran = run([program, "replay", "network.json", "traffic.json", "run.txt"], work, text=True)
        return ran.returncode, ran.stdout


def main():
    words = argparse.ArgumentParser(description=__doc__, formatter_class=argparse.RawDescriptionHelpFormatter)
    words.add_argument("program", type=os.path.abspath)
    words.add_argument("--spellings", type=int, default=200)
    words.add_argument("--seed", type=int, default=1)
    words = words.parse_args()
    draw = random.Random(words.seed)
    texts = [spelled(draw, address(draw)) for _ in range(words.spellings)]
    others = [changed(draw, draw.choice(texts)) for _ in range(words.spellings)]
    texts += [text for text in others if read(text) is not None]
    wrong = [text for text in others if read(text) is None]
    passed, failed = 0, []
    for begin in range(0, len(texts), CLASSES):
        part = texts[begin : begin + CLASSES]
        status, said = replayed(words.program, part, [(at + 1, read(text)) for at, text in enumerate(part)])
        if status == 0:
            passed += len(part)
        else:
            failed.append(f"{said.strip()}: one of {part}")
    for text in texts[:20]:
        other = read(text) ^ 1 << draw.randrange(128)
        status, said = replayed(words.program, [text], [(1, other)])
        (passed := passed + 1) if (status, said) == (2, "refused 856 line 2\n") else failed.append(f"{text}: {written(other)} is in it")
    for text in wrong:
        status, said = replayed(words.program, [text], [])
        # a hyphen separates two values, a slash comes before a length
        if any(mark in text for mark in "-/"):
            continue
        if (status, said) == (2, "refused 302 /classes/0/region/sourceIPv6Address\n"):
            passed += 1
        else:
            failed.append(f"{text!r}: {said.strip()}")
    for line in failed:
        print(line)
    print(f"{passed} passed, {len(failed)} failed")
    sys.exit(bool(failed))


main()
