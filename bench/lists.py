"""Paths of meters whose filters are lists of networks, and mediators whose matches are: documents, and balanced certificates of one path.

The bounds of docs/SPEED.md on filter lists are taken on these. A path crosses at most 31 meters, and a class has one path; more meters
stand on paths of further classes, each with an equal part of the networks.
"""
import ipaddress
import os
import sys

TOP = os.path.dirname(os.path.dirname(os.path.abspath(__file__)))
sys.path[:0] = [os.path.join(TOP, "tests")]

from check import document
from filter_lists import FIRST, SIZE, lists_of as lists_of_numbers, mediated, network, networks_of, traffic as traffic_over

METERS_OF_A_PATH = 32


def classes_of(meters):
    """Returns the numbers of the meters that each class's path crosses."""
    count = -(-meters // METERS_OF_A_PATH)
    size = -(-meters // count)
    return [list(range(at, min(at + size, meters))) for at in range(0, meters, size)]


def traffic(meters, filters):
    """Returns a declaration of classes of sources, by the meters that they cross."""
    classes = []
    for at, numbers in enumerate(classes_of(meters)):
        low, high = FIRST + numbers[0] * filters * SIZE, FIRST + (numbers[-1] + 1) * filters * SIZE - 1
        path = [{"device": f"meter {it}", "interface": "eth0", "direction": "ingress"} for it in numbers]
        region = {"ipVersion": "4", "sourceIPv4Address": f"{ipaddress.ip_address(low)}-{ipaddress.ip_address(high)}"}
        classes.append({"name": f"class {at}", "region": region, "paths": [path]})
    return {"classes": classes}


def lists_of(meters, filters, order):
    """Returns the numbers of the networks that each meter's filters select, in order; a class's meters share a run of networks."""
    lists = []
    for numbers in classes_of(meters):
        first, count = numbers[0] * filters, len(numbers) * filters
        networks = [first + it for it in networks_of(count, order)]
        lists += [networks[at:at + filters] for at in range(0, count, filters)]
    return lists


def documents(work, meters, filters, order):
    """Writes the network and the traffic, and returns their files."""
    name = f"{meters}x{filters}-{order}.json"
    made = network(lists_of(meters, filters, order)), traffic(meters, filters)
    return document(work, f"network-{name}", made[0]), document(work, f"traffic-{name}", made[1])


def lines_of(meters, filters):
    """Returns how many splits and leaves the certificate has."""
    return 2 * meters * filters - len(classes_of(meters))


def tree(low, high, where):
    """Yields the lines of a balanced tree over the networks from `low` to `high` less one, with the meter and filter of each."""
    waiting = [(low, high)]
    while waiting:
        low, high = waiting.pop()
        if high - low == 1:
            crossing, process = where[low]
            yield f"L {crossing} 1 {process}\n"
            continue
        middle = (low + high) // 2
        yield f"S source {FIRST + middle * SIZE}\n"
        waiting += [(middle, high), (low, middle)]


def certificate(work, meters, filters, order):
    """Writes the certificate whose trees are balanced, and returns its file."""
    lists, path = lists_of(meters, filters, order), os.path.join(work, f"certificate-{meters}x{filters}-{order}.txt")
    with open(path, "w", encoding="utf-8") as file:
        file.write("once-certificate 1\n")
        for at, numbers in enumerate(classes_of(meters), 1):
            where = {it: (crossing, process) for crossing, meter in enumerate(numbers, 1) for process, it in enumerate(lists[meter], 1)}
            file.write(f"class {at} path 1\n")
            file.writelines(tree(min(where), max(where) + 1, where))
        file.write("end\n")
    return path


def mediator_documents(work, processes, matches):
    """Writes the network of a mediator whose collecting processes have this number of matches each, and its traffic; returns their files."""
    name, lists = f"{processes}x{matches}-matches.json", lists_of_numbers(processes, matches, "ascending")
    return document(work, f"network-{name}", mediated(lists)), document(work, f"traffic-{name}", traffic_over(1, processes * matches))


def mediator_certificate(work, processes, matches):
    """Writes its certificate whose tree is balanced, and returns the file."""
    count, path = processes * matches, os.path.join(work, f"certificate-{processes}x{matches}-matches.txt")
    with open(path, "w", encoding="utf-8") as file:
        file.write("once-certificate 1\nclass 1 path 1\n")
        file.writelines(tree(0, count, {it: (1, 1) for it in range(count)}))
        file.write("end\n")
    return path
