#!/usr/bin/env python3
"""filter_lists.py PROGRAM: audits paths of meters whose filters are lists of networks, and mediators whose matches are, in order and shuffled.

Each filter of each meter selects another network of 256 addresses, and together they are the packets of the class, so each leaf of a
certificate has one filter and there are as many leaves as filters. `audit` must print a certificate with one split fewer than
leaves, none of them deeper than 2 log2 of the number of filters, plus 2, in whatever order the filters come; each leaf must name
the filter of its network; and `check` must say yes. With one filter less, `audit` must print a refutation that `confirm` confirms.
So it must with a meter that counts all packets and collecting processes of a mediator, to each of which it sends, whose aggregations
each take in the records of another network.

Prints a line for each that fails, and last `N passed, M failed`; the exit status is 1 if one failed. It takes some seconds.
"""
import ipaddress
import json
import math
import os
import random
import sys
import tempfile

from program import run
from verdict import report_named

# How many meters, how many filters each has, and their order.
LISTS = [(1, 64, "ascending"), (9, 64, "ascending"), (4, 250, "ascending"), (4, 250, "descending"), (4, 250, "shuffled"), (2, 3, "shuffled")]
# How many collecting processes a mediator has, how many aggregations each has, and their order.
MATCHES = [(1, 256, "ascending"), (1, 256, "descending"), (1, 256, "shuffled"), (3, 200, "ascending"), (3, 200, "descending"), (3, 200, "shuffled")]
FIRST = int(ipaddress.ip_address("10.0.0.0"))
SIZE = 256


def networks_of(count, order):
    """Returns the numbers of the networks in the order of their filters."""
    numbers = list(range(count))
    if order == "descending":
        numbers.reverse()
    if order == "shuffled":
        random.Random(count).shuffle(numbers)
    return numbers


def field(name, is_key):
    return {"name": name, "ieName": name, **({"isFlowKey": [None]} if is_key else {})}


def prefix_of(number):
    """Returns a network by its number, as a prefix."""
    return f"{ipaddress.ip_address(FIRST + number * SIZE)}/24"


def selection(number):
    """Returns a selection process of a network."""
    prefix = prefix_of(number)
    tests = (("ipVersion", "4"), ("sourceIPv4Prefix", prefix))
    matches = [{"name": name, "filterMatch": {"ieName": name, "value": value}} for name, value in tests]
    return {"name": prefix, "selector": matches, "cache": "sources"}


def exporter(destinations):
    """Returns an exporting process with these destinations."""
    there = [{"name": it, "udpExporter": {"destinationIPAddress": "192.0.2.1", "destinationPort": 4739}} for it in destinations]
    return {"name": "out", "exportMode": "parallel", "destination": there}


def device(name, parts):
    return {"name": name, "config": {"ietf-ipfix-psamp:ipfix": parts}}


def metering(name, selections, destinations):
    """Returns a device that counts packets by source, with these selection processes, and sends to these destinations."""
    fields = [field("sourceIPv4Address", True), field("octetDeltaCount", False), field("packetDeltaCount", False)]
    point = {"name": "in", "observationDomainId": 1, "ifName": ["eth0"], "direction": "ingress", "selectionProcess": [it["name"] for it in selections]}
    cache = {"name": "sources", "timeoutCache": {"maxFlows": 1000, "activeTimeout": 60, "cacheLayout": {"cacheField": fields}}, "exportingProcess": ["out"]}
    return device(name, {"observationPoint": [point], "selectionProcess": selections, "cache": [cache], "exportingProcess": [exporter(destinations)]})


def meter(name, numbers):
    """Returns a device that counts packets by source, from these networks."""
    return metering(name, [selection(it) for it in numbers], ["collector"])


def aggregation(number):
    """Returns an aggregation that takes in the records of a network."""
    prefix = prefix_of(number)
    return {"name": prefix, "key": [{"ieName": "sourceIPv4Address"}], "match": [{"ieName": "sourceIPv4Prefix", "value": prefix}], "exportingProcess": ["out"]}


def link(name, destination, to, process):
    return {"device": name, "exportingProcess": "out", "destination": destination, "toDevice": to, "toProcess": process}


def collecting(devices, links):
    """Returns the document of a network of these devices and a collector that reports."""
    collector = device("collector", {"collectingProcess": [{"name": "records"}]})
    report = {"device": "collector", "collectingProcess": "records", "key": [{"ieName": "sourceIPv4Address"}]}
    return {"devices": [*devices, collector], "links": links, "report": report}


def network(lists):
    """Returns the document of a network of meters with these lists of networks."""
    names = [f"meter {it}" for it in range(len(lists))]
    return collecting(map(meter, names, lists), [link(it, "collector", "collector", "records") for it in names])


def mediated(lists):
    """Returns the document of a network of a meter that counts all packets and a mediator with a collecting process for each list of networks."""
    everything = {"name": "all", "selector": [{"name": "all", "selectAll": [None]}], "cache": "sources"}
    names = [f"records {it}" for it in range(len(lists))]
    processes = [{"name": name, "once-audit:aggregation": [aggregation(it) for it in numbers]} for name, numbers in zip(names, lists)]
    mediator = device("mediator", {"collectingProcess": processes, "exportingProcess": [exporter(["collector"])]})
    links = [*(link("meter 0", it, "mediator", it) for it in names), link("mediator", "collector", "collector", "records")]
    return collecting([metering("meter 0", [everything], names), mediator], links)


def traffic(meters, count):
    """Returns the document of a class: packets from `count` networks, which cross all meters."""
    last = ipaddress.ip_address(FIRST + count * SIZE - 1)
    path = [{"device": f"meter {it}", "interface": "eth0", "direction": "ingress"} for it in range(meters)]
    region = {"ipVersion": "4", "sourceIPv4Address": f"{ipaddress.ip_address(FIRST)}-{last}"}
    return {"classes": [{"name": "all", "region": region, "paths": [path]}]}


def leaves_of(text, count):
    """Returns the leaves of a certificate's only tree, as pairs of a network and what the leaf says, and the depth of the deepest split."""
    waiting, leaves, deepest = [(0, count, 0)], [], 0
    for words in map(str.split, text.splitlines()[2:-1]):
        low, high, depth = waiting.pop()
        if words[0] == "S":
            at, rest = divmod(int(words[2]) - FIRST, SIZE)
            if words[1] != "source" or rest or not low < at < high:
                raise ValueError(f"a split at {words[2]} of the networks from {low} to {high}")
            deepest = max(deepest, depth + 1)
            waiting += [(at, high, depth + 1), (low, at, depth + 1)]
        elif high - low == 1:
            leaves.append((low, tuple(words[1:])))
        else:
            raise ValueError(f"a leaf for the networks from {low} to {high}")
    return leaves, deepest


def answered(program, command, *names):
    return run([program, command, *names], seconds=600, text=True)


def written(folder, name, value):
    path = os.path.join(folder, name)
    with open(path, "w", encoding="utf-8") as file:
        file.write(value if isinstance(value, str) else json.dumps(value))
    return path


def certificate_faults(program, folder, documents, wanted):
    """Yields what is wrong with the answer where each network is counted, by what its leaf should say."""
    answer = answered(program, "audit", *documents)
    if answer.returncode:
        yield f"audit ends with {answer.returncode}: {answer.stdout[:40]!r}"
        return
    leaves, deepest = leaves_of(answer.stdout, len(wanted))
    if leaves != sorted(wanted.items()):
        yield "the leaves do not name the filters of their networks"
    if deepest > 2 * math.log2(len(wanted)) + 2:
        yield f"a split of depth {deepest} for {len(wanted)} networks"
    said = answered(program, "check", *documents, written(folder, "certificate.txt", answer.stdout)).stdout
    if said != "yes\n":
        yield f"check says {said[:40]!r}"


def refutation_faults(program, folder, documents):
    """Yields what is wrong with the answer where a network is not counted."""
    answer = answered(program, "audit", *documents)
    if answer.returncode != 1:
        yield f"audit with a network less ends with {answer.returncode}"
    said = answered(program, "confirm", *documents, written(folder, "refutation.txt", answer.stdout)).stdout
    if not said.startswith("refuted\n"):
        yield f"confirm says {said[:40]!r}"


def documents_of(folder, made, meters, count):
    """Writes the network and the traffic, and returns their files."""
    return written(folder, "network.json", made), written(folder, "traffic.json", traffic(meters, count))


def lists_of(count, size, order):
    """Returns the numbers of the networks in `count` lists of this size each."""
    numbers = networks_of(count * size, order)
    return [numbers[it * size:(it + 1) * size] for it in range(count)]


def faults_of(program, folder, meters, filters, order):
    """Yields what is wrong with the audits of such a path."""
    count, lists = meters * filters, lists_of(meters, filters, order)
    wanted = {number: (str(at + 1), "1", str(place + 1)) for at, numbers in enumerate(lists) for place, number in enumerate(numbers)}
    yield from certificate_faults(program, folder, documents_of(folder, network(lists), meters, count), wanted)
    fewer = network([*lists[:-1], lists[-1][:-1]])
    yield from refutation_faults(program, folder, documents_of(folder, fewer, meters, count))


def faults_of_matches(program, folder, processes, matches, order):
    """Yields what is wrong with the audits of such a mediator."""
    count, lists = processes * matches, lists_of(processes, matches, order)
    wanted = {number: ("1", "1", "1") for number in range(count)}
    yield from certificate_faults(program, folder, documents_of(folder, mediated(lists), 1, count), wanted)
    fewer = mediated([*lists[:-1], lists[-1][:-1]])
    yield from refutation_faults(program, folder, documents_of(folder, fewer, 1, count))


def cases(program, folder):
    """Yields the name of each case, and what is wrong with it."""
    for meters, filters, order in LISTS:
        yield f"{meters} meters of {filters} filters, {order}", faults_of(program, folder, meters, filters, order)
    for processes, matches, order in MATCHES:
        yield f"{processes} collecting processes of {matches} matches, {order}", faults_of_matches(program, folder, processes, matches, order)


def main(arguments):
    if len(arguments) != 1:
        sys.exit(__doc__)
    with tempfile.TemporaryDirectory() as folder:
        program = os.path.abspath(arguments[0])
        return report_named(cases(program, folder))


if __name__ == "__main__":
    sys.exit(main(sys.argv[1:]))
