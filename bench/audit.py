"""What bench/audit.sh runs: audit.py PROGRAM FOLDER, the folder for documents and answers."""
import os
import sys

import lists
from check import busy, chain, document, least_in_turns, one_class, run
from sample_networks import FILTERS, metered, paths


def answered(words, status, begins, to=None):
    """The processor time of a call that ends with this status, its answer beginning so."""
    before = busy()
    _, _, said, code = run(words)
    taken = busy() - before
    if code != status or not said.startswith(begins):
        sys.exit("%s: printed %r, status %d" % (" ".join(words), said[:200], code))
    if to:
        with open(to, "w") as file:
            file.write(said)
    return taken


def per_line(program, work):
    network = document(work, "filters.json", metered(FILTERS))
    lines, figures, right = 4 * FILTERS + 1, [], True
    for count, rounds in ((2, 60), (20, 30), (200, 10), (1_996, 8)):
        traffic, found = document(work, "paths-%d.json" % count, paths(count)), os.path.join(work, "found-%d.txt" % count)
        audit, check = [program, "audit", network, traffic], [program, "check", network, traffic, found]
        answered(audit, 0, "once-certificate 1\n", found)
        ours, theirs = least_in_turns(rounds, [lambda: answered(audit, 0, "once-certificate 1\n"), lambda: answered(check, 0, "yes\n")])
        figures.append(ours / (count * lines))
        print("%9d lines: %5.0f ns a line, check %5.0f ns, %.2f times" % (count * lines, figures[-1] * 1e9, theirs * 1e9 / (count * lines), ours / theirs))
        right = right and ours <= 2 * theirs
    print("per line: %.2f times" % (max(figures[1:]) / min(figures[1:])))
    return right and max(figures[1:]) <= 1.3 * min(figures[1:])


def filter_lists(program, work):
    """Whether paths of meters with lists of filters are audited and checked, in whatever order the filters are listed."""
    right = True
    for meters, filters in ((1, 64), (32, 256), (62, 256)):
        times = []
        for order in ("ascending", "descending", "shuffled"):
            documents, found = lists.documents(work, meters, filters, order), os.path.join(work, "found.txt")
            audit, check = [program, "audit", *documents], [program, "check", *documents, found]
            answered(audit, 0, "once-certificate 1\n", found)
            ours, theirs = least_in_turns(3, [lambda: answered(audit, 0, "once-certificate 1\n"), lambda: answered(check, 0, "yes\n")])
            lines = lists.lines_of(meters, filters)
            print("%2d x %d filters, %-10s %6d lines: audit %.3f s, check %.3f s" % (meters, filters, order, lines, ours, theirs))
            times.append(ours)
        right = right and (meters == 1 or max(times) <= 1.5 * min(times))
    return right


def large(program, work, traffic):
    network = document(work, "chain.json", chain(256, 64))
    taken = least_in_turns(5, [lambda: answered([program, "audit", network, traffic], 0, "once-certificate 1\n")])[0]
    print("256 processes, 64 layouts: %.4f s" % taken)
    return taken <= 0.1


def doublings(program, work, traffic):
    right = True
    for processes in (20, 64):
        network = document(work, "doublings-%d.json" % processes, chain(processes, 0, 2))
        taken = least_in_turns(5, [lambda: answered([program, "audit", network, traffic], 3, "unknown 601\n")])[0]
        print("%d doublings: %.4f s" % (processes - 1, taken))
        right = right and taken <= 0.1
    return right


def refuted(program, work, traffic):
    network, found = document(work, "refuted.json", chain(19, 0, 2)), os.path.join(work, "refutation.txt")
    audit, confirm = [program, "audit", network, traffic], [program, "confirm", network, traffic, found]
    answered(audit, 1, "once-refutation ", found)
    ours, theirs = least_in_turns(3, [lambda: answered(audit, 1, "once-refutation "), lambda: answered(confirm, 0, "refuted\n")])
    with open(found) as file:
        steps = sum(1 for _ in file) - 3
    print("a refutation of %d steps: written in %.2f s, confirmed in %.2f s" % (steps, ours, theirs))
    return ours + theirs <= 3


def main(program, work):
    program = os.path.abspath(program)
    traffic = one_class(work)
    done = [per_line(program, work), filter_lists(program, work), large(program, work, traffic), doublings(program, work, traffic), refuted(program, work, traffic)]
    return 0 if all(done) else 1


if __name__ == "__main__":
    sys.exit(main(*sys.argv[1:]))
