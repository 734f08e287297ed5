"""What bench/check.sh runs: check.py PROGRAM FOLDER, the folder for documents and certificates."""
import json
import os
import resource
import shutil
import subprocess
import sys
import time

TOP = os.path.dirname(os.path.dirname(os.path.abspath(__file__)))
sys.path.insert(0, os.path.join(TOP, "tests"))

from long_certificates import ROW, write_certificate

LONGEST, MEMORY = 499_999, 32_000_000
PAGE = resource.getpagesize()


# ---- running

def busy():
    """The processor time of all processes that were waited for."""
    used = resource.getrusage(resource.RUSAGE_CHILDREN)
    return used.ru_utime + used.ru_stime


def run(words, room=None):
    """The time of a process in at most so much address space, its processor time, what it prints and its status."""
    bound = room and (lambda: resource.setrlimit(resource.RLIMIT_AS, (room, room)))
    before, start = busy(), time.perf_counter()
    said = subprocess.DEVNULL if room else None
    done = subprocess.run(words, stdin=subprocess.DEVNULL, stdout=subprocess.PIPE, stderr=said, preexec_fn=bound)
    return time.perf_counter() - start, busy() - before, done.stdout.decode(), done.returncode


def checked(words, wanted="yes\n"):
    """The time of a check that is answered so, and its processor time."""
    taken, used, said, status = run(words)
    if said != wanted:
        sys.exit("printed %r, status %d, instead of %r" % (said[:200], status, wanted))
    return taken, used


def least_in_turns(rounds, ways):
    """Returns the least figure of each way, of this many runs of each, interleaved."""
    found = [[] for _ in ways]
    for _ in range(rounds):
        for figures, way in zip(found, ways):
            figures.append(way())
    return [min(figures) for figures in found]


# ---- documents

def document(work, name, value):
    path = os.path.join(work, name)
    with open(path, "w") as file:
        json.dump(value, file)
    return path


def fields(number):
    """Another key for each number from 1 on: the first bits of the source, from 33 on with the destination too, from 65 on
    with the protocol as well. Number 32 is the source alone."""
    source = {"ieName": "sourceIPv4Prefix", "prefixLength": (number - 1) % 32 + 1}
    return [source] + [{"ieName": "destinationIPv4Address"}] * (number > 32) + [{"ieName": "protocolIdentifier"}] * (number > 64)


def meter():
    cache_fields = [{"name": "s", "ieName": "sourceIPv4Address", "isFlowKey": [None]}, {"name": "o", "ieId": 1}, {"name": "p", "ieId": 2}]
    return {
        "observationPoint": [{"name": "op", "observationDomainId": 0, "ifName": ["eth0"], "selectionProcess": ["sp"]}],
        "selectionProcess": [{"name": "sp", "selector": [{"name": "a", "selectAll": [None]}], "cache": "ca"}],
        "cache": [{"name": "ca", "timeoutCache": {"cacheLayout": {"cacheField": cache_fields}}, "exportingProcess": ["metered"]}],
        "exportingProcess": [{"name": "metered", "destination": [{"name": "d1", "tcpExporter": {}}]}],
    }


def collector(place, layouts):
    """A collecting process that sends on what it gets. Where there are layouts, it also aggregates what it gets by one of
    them, which is sent outside the network."""
    process = {"name": "in %d" % place, "exportingProcess": ["on %d" % place]}
    if layouts:
        by_one = {"name": "g", "match": [{"ieName": "sourceIPv4Prefix", "value": "10.0.0.0/8"}], "key": fields(1 + place % layouts), "exportingProcess": ["out"]}
        process["once-audit:aggregation"] = [by_one]
    return process


def chain(processes, layouts=0, ways=1, mode="parallel", first=0):
    """A meter and this many collecting processes, four to a device. Each sends on to the next in this many ways; the last one
    reports. The meter sends to the one at this place."""
    devices = []
    for number in range((processes + 3) // 4):
        places = range(4 * number, min(4 * number + 4, processes))
        lists = meter() if number == 0 else {"exportingProcess": []}
        destinations = [{"name": "d%d" % (way + 1), "tcpExporter": {}} for way in range(ways)]
        lists["collectingProcess"] = [collector(place, layouts) for place in places]
        lists["exportingProcess"] += [{"name": "on %d" % place, "exportMode": mode, "destination": destinations} for place in places]
        lists["exportingProcess"].append({"name": "out", "destination": [{"name": "d1", "tcpExporter": {}}]})
        devices.append({"name": "d%d" % number, "config": {"ietf-ipfix-psamp:ipfix": lists}})
    link = lambda source, name, way, to: {
        "device": "d%d" % source, "exportingProcess": name, "destination": "d%d" % (way + 1), "toDevice": "d%d" % (to // 4), "toProcess": "in %d" % to}
    links = [link(0, "metered", 0, first)]
    links += [link(place // 4, "on %d" % place, way, place + 1) for place in range(processes - 1) for way in range(ways)]
    report = {"device": "d%d" % ((processes - 1) // 4), "collectingProcess": "in %d" % (processes - 1), "key": fields(32)}
    return {"devices": devices, "links": links, "report": report}


def one_class(work):
    path = [{"device": "d0", "interface": "eth0", "direction": "ingress"}]
    return document(work, "traffic.json", {"classes": [{"name": "all", "region": {"sourceIPv4Address": "10.0.0.0/8"}, "paths": [path]}]})


# ---- what is measured

class Checker:
    """The program with two documents, and certificates for them."""

    def __init__(self, program, network, traffic, work):
        self.words, self.work = [program, "check", network, traffic], work

    def of(self, splits):
        """The arguments of a check of a certificate with this many splits."""
        path = os.path.join(self.work, "certificate-%d.txt" % splits)
        if not os.path.exists(path):
            write_certificate(path, splits)
        return self.words + [path]


def beside_mawk(checker):
    words = checker.of(LONGEST)
    if not shutil.which("mawk"):
        print("mawk is missing: apt-get install mawk")
        return False
    awk = ["mawk", "{n += NF} END {print n}", words[-1]]
    ours, theirs = least_in_turns(5, [lambda: checked(words)[0], lambda: checked(awk, "%d\n" % (2 + 4 + 3 * LONGEST + 4 * (LONGEST + 1) + 1))[0]])
    print("%d splits and %d leaves, %d octets: %.3f s, mawk %.3f s, %.2f times mawk's" % (LONGEST, LONGEST + 1, os.path.getsize(words[-1]), ours, theirs, ours / theirs))
    return ours <= 2 * theirs


def is_enough(words, room):
    """Whether a check says yes in so much address space."""
    return run(words, room)[2] == "yes\n"


def memory(checker):
    least, enough = 0, MEMORY // PAGE
    while least + 1 < enough:
        middle = (least + enough) // 2
        least, enough = (least, middle) if is_enough(checker.of(0), middle * PAGE) else (middle, enough)
    room = enough * PAGE
    right = is_enough(checker.of(0), room) and is_enough(checker.of(LONGEST), room)
    print("address space: %d octets are the least for one leaf, and %s for the longest" % (room, "are enough" if right else "are NOT ENOUGH"))
    return right and room < MEMORY


def per_line(checker):
    checks = lambda splits: lambda: checked(checker.of(splits))[1]
    figures = []
    for lines, rounds in ((1_000, 1_000), (10_000, 300), (100_000, 60), (1_000_000, 15)):
        splits = lines // 2 - 1
        start, whole = least_in_turns(rounds, [checks(0), checks(splits)])
        figures.append((whole - start) / (2 * splits))
        print("%9d lines: %4.0f ns of processor time a line, and %.2f ms to start" % (lines, figures[-1] * 1e9, start * 1e3))
    print("per line from 1,000 to 1,000,000 lines: %.2f times" % (max(figures) / min(figures)))
    return max(figures) <= 1.3 * min(figures)


def per_leaf(program, work, traffic, processes, layouts, reached):
    """The processor time of a leaf, where the path's records reach this many of the processes, the last ones."""
    first = processes - reached
    network = document(work, "chain-%d-%d-%d.json" % (processes, layouts, first), chain(processes, layouts, first=first))
    checker, leaves = Checker(program, network, traffic, work), 10_001
    start, whole = least_in_turns(3, [lambda: checked(checker.of(0))[1], lambda: checked(checker.of(leaves - 1))[1]])
    figure = (whole - start) / (leaves - 1)
    print("%d processes of which the path reaches %d, %d layouts: %.2f us a leaf" % (processes, reached, layouts, figure * 1e6))
    return figure


def is_full(program, work, traffic):
    """Whether one layout more than 64 is refused: so the network of the measurement has as many as it should."""
    network = document(work, "chain-too-wide.json", chain(256, 64 + 1))
    said = run(Checker(program, network, traffic, work).of(0))[2]
    if not said.startswith("refused 207"):
        print("65 layouts: printed %r" % said[:200])
    return said.startswith("refused 207")


def by_reach(program, work, traffic):
    few, all_of_them = (per_leaf(program, work, traffic, 256, 64, reached) for reached in (4, 256))
    return is_full(program, work, traffic) and few <= 20e-6 and all_of_them <= 200e-6


def doublings(program, work, traffic):
    right = True
    for mode, wanted in (("parallel", "no 408 line 3\n"), ("loadBalancing", "yes\n")):
        network = document(work, "doublings-%s.json" % mode, chain(64, 0, 2, mode))
        words = Checker(program, network, traffic, work).of(0)
        taken = min(checked(words, wanted)[0] for _ in range(5))
        print("63 doublings, %s: %.4f s, %s" % (mode, taken, wanted.strip()))
        right = right and taken <= 0.1
    return right


def main(program, work):
    program = os.path.abspath(program)
    checker = Checker(program, os.path.join(ROW, "network.json"), os.path.join(ROW, "traffic.json"), work)
    traffic = one_class(work)
    done = [
        beside_mawk(checker),
        memory(checker),
        per_line(checker),
        by_reach(program, work, traffic),
        doublings(program, work, traffic),
    ]
    return 0 if all(done) else 1


if __name__ == "__main__":
    sys.exit(main(*sys.argv[1:]))
