#!/usr/bin/env python3
"""split_sizes.py PROGRAM [COUNT]: compares certificates that `audit` finds with those of a search that splits at the first bound.

COUNT networks (1,000 if none is given), each of one path of meters whose filters are products of a source and a destination prefix
that together cut the space of the class into disjoint parts, drawn at random from a fixed seed. A certificate has as many
lines as its splits and leaves. For the same filters a few lines of Python build the tree that splits each region at the first bound
of the first filter, in the order of the documents, that cuts the region. `audit` must print a certificate for each network, and all
together may have at most a tenth more lines than those trees.

Prints a line for each network that has no certificate, then both sums, and last `N passed, M failed`; the exit status is 1 if one failed.
"""
import ipaddress
import os
import random
import sys
import tempfile

from filter_lists import network, written
from program import run
from verdict import report_named

SEED, COUNT, MOST = 54, 1_000, 1.10
AXES = ("source", "destination")
ELEMENTS = ("sourceIPv4Prefix", "destinationIPv4Prefix")
BITS = 32
TOP = (1 << BITS) - 1


def parts_of(draw, box, left):
    """Returns the box cut into at most `left` parts, each time one part by halves on an axis drawn at random."""
    parts = [box]
    while len(parts) < left:
        at = draw.randrange(len(parts))
        axis = draw.randrange(len(AXES))
        low, high = parts[at][axis]
        if low == high:
            continue
        middle = (low + high + 1) // 2
        parts[at:at + 1] = [with_range(parts[at], axis, (low, middle - 1)), with_range(parts[at], axis, (middle, high))]
    draw.shuffle(parts)
    return parts


def with_range(box, axis, values):
    return tuple(values if at == axis else it for at, it in enumerate(box))


def selection(box):
    """Returns a selection process of the packets in this box of two prefixes."""
    tests = [("ipVersion", "4")]
    for name, (low, high) in zip(ELEMENTS, box):
        length = BITS - (high - low).bit_length()
        tests += [(name, f"{ipaddress.ip_address(low)}/{length}")] if length else []
    name = " ".join(value for _, value in tests)
    return {"name": name, "selector": [{"name": it, "filterMatch": {"ieName": it, "value": value}} for it, value in tests], "cache": "sources"}


def document(lists):
    """Returns the network of meters with these lists of boxes."""
    made = network([[0] for _ in lists])
    for device, boxes in zip(made["devices"], lists):
        parts = device["config"]["ietf-ipfix-psamp:ipfix"]
        parts["selectionProcess"] = [selection(box) for box in boxes]
        parts["observationPoint"][0]["selectionProcess"] = [it["name"] for it in parts["selectionProcess"]]
    return made


def traffic(meters):
    path = [{"device": f"meter {it}", "interface": "eth0", "direction": "ingress"} for it in range(meters)]
    return {"classes": [{"name": "all", "region": {"ipVersion": "4"}, "paths": [path]}]}


def first_bound(box, boxes):
    """Returns the axis and the first bound of the first of these boxes that cuts the box, or None."""
    for other in boxes:
        if any(high < its_low or its_high < low for (low, high), (its_low, its_high) in zip(box, other)):
            continue
        for axis, ((low, high), (its_low, its_high)) in enumerate(zip(box, other)):
            if low < its_low:
                return axis, its_low
            if its_high < high:
                return axis, its_high + 1
    return None


def lines_of_first(box, boxes):
    """Returns the number of splits and leaves of the tree that splits at the first bound."""
    count, waiting = 0, [box]
    while waiting:
        box = waiting.pop()
        count += 1
        found = first_bound(box, boxes)
        if found:
            axis, at = found
            low, high = box[axis]
            waiting += [with_range(box, axis, (low, at - 1)), with_range(box, axis, (at, high))]
    return count


def lines_found(program, documents):
    """Returns the number of splits and leaves of the certificate that `audit` prints, or None."""
    answer = run([program, "audit", *documents], text=True)
    if answer.returncode:
        return None
    return sum(line.startswith(("S ", "L ")) for line in answer.stdout.splitlines())


class Sums:
    """The lines of all certificates: those found, and those by the first bound."""

    def __init__(self):
        self.found, self.first = 0, 0

    def faults_of(self, program, folder, number):
        """Yields what is wrong with the network of this number, and adds its lines."""
        draw = random.Random(SEED * COUNT + number)
        space = tuple((0, TOP) for _ in AXES)
        boxes = parts_of(draw, space, draw.randint(2, 48))
        meters = draw.randint(1, 4)
        lists = [it for it in (boxes[at::meters] for at in range(meters)) if it]
        documents = written(folder, "network.json", document(lists)), written(folder, "traffic.json", traffic(len(lists)))
        found = lines_found(program, documents)
        if found is None:
            yield "audit finds no certificate"
            return
        self.found += found
        self.first += lines_of_first(space, [box for boxes in lists for box in boxes])

    def total_faults(self):
        """Prints both sums, and yields whether the certificates found are too long."""
        print(f"lines: {self.found} found, {self.first} by the first bound, {self.found / max(1, self.first):.3f} times")
        if self.found > MOST * self.first:
            yield f"{self.found} lines, more than {MOST} times the {self.first} of splits at the first bound"


def main(arguments):
    if len(arguments) not in (1, 2):
        sys.exit(__doc__)
    program, count, sums = os.path.abspath(arguments[0]), int(arguments[1]) if len(arguments) == 2 else COUNT, Sums()
    with tempfile.TemporaryDirectory() as folder:
        runs = [(f"network {it}", sums.faults_of(program, folder, it)) for it in range(count)]
        return report_named([*runs, ("all", sums.total_faults())])


if __name__ == "__main__":
    sys.exit(main(sys.argv[1:]))
