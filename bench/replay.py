"""What bench/replay.sh runs: replay.py PROGRAM EXAMPLE FOLDER, the folder for documents and runs."""
import json
import os
import subprocess
import sys
import time

HOPS = 10
EACH = 100


def one_record(steps):
    """A run of this many steps, and the totals after it."""
    packets = steps - 2
    return one_record_text(packets), "keys 1\n10.0.0.1 packets %d octets %d\nunassigned 0\ncomplete yes\n" % (packets, 100 * packets)


def one_record_text(packets):
    yield "once-run 1\n"
    for _ in range(packets):
        yield "packet 1 1 10.0.0.1 192.0.2.1 6 49152 443 0 100\n"
    yield "cross 1 1 n\n"
    for packet in range(2, packets + 1):
        yield "cross %d 1 1\n" % packet
    yield "expire cache 1 1 1\narrive 1 1\nend\n"


def device(name, lists):
    return {"name": name, "config": {"ietf-ipfix-psamp:ipfix": lists}}


def exporting():
    return [{"name": "on", "destination": [{"name": "next", "tcpExporter": {}}]}]


def link(number):
    return {"device": "d%d" % number, "exportingProcess": "on", "destination": "next", "toDevice": "d%d" % (number + 1), "toProcess": "in"}


def chain_network():
    """A meter, ten collectors that aggregate by source and send on, and the collector that reports."""
    fields = [{"name": "s", "ieName": "sourceIPv4Address", "isFlowKey": [None]}, {"name": "o", "ieId": 1}, {"name": "p", "ieId": 2}]
    by_source = [{"ieName": "sourceIPv4Address"}]
    meter = device("d1", {
        "observationPoint": [{"name": "a", "observationDomainId": 0, "ifName": ["eth0"], "selectionProcess": ["all"]}],
        "selectionProcess": [{"name": "all", "selector": [{"name": "a", "selectAll": [None]}], "cache": "by source"}],
        "cache": [{"name": "by source", "timeoutCache": {"cacheLayout": {"cacheField": fields}}, "exportingProcess": ["on"]}],
        "exportingProcess": exporting(),
    })
    aggregation = {"name": "by source", "key": by_source, "exportingProcess": ["on"]}
    hops = [device("d%d" % (hop + 2), {"exportingProcess": exporting(), "collectingProcess": [{"name": "in", "once-audit:aggregation": [aggregation]}]}) for hop in range(HOPS)]
    last = device("d%d" % (HOPS + 2), {"collectingProcess": [{"name": "in"}]})
    return {
        "devices": [meter] + hops + [last],
        "links": [link(number) for number in range(1, HOPS + 2)],
        "report": {"device": "d%d" % (HOPS + 2), "collectingProcess": "in", "key": by_source},
    }


def address(source):
    return "10.0.%d.%d" % (source // 256, source % 256)


def chain(packets):
    """A run of this many packets, each hundred of which have one source, and the totals after it."""
    sources = packets // EACH
    lines = "".join("%s packets %d octets %d\n" % (address(source), EACH, 100 * EACH) for source in range(sources))
    return chain_text(packets, sources), "keys %d\n%sunassigned 0\ncomplete yes\n" % (sources, lines)


def chain_text(packets, sources):
    yield "once-run 1\n"
    for packet in range(packets):
        yield "packet 1 1 %s 192.0.2.1 6 49152 443 0 100\n" % address(packet % sources)
    for packet in range(packets):
        yield "cross %d 1 %s\n" % (packet + 1, "n" if packet < sources else packet % sources + 1)
    for _ in range(sources):
        yield "expire cache 1 1 1\n"
        for hop in range(HOPS):
            yield "arrive %d 1 n\nexpire aggregation %d 1 1 1\n" % (hop + 1, hop + 2)
        yield "arrive %d 1\n" % (HOPS + 1)
    yield "end\n"


def chain_documents(work):
    """The files of the chain's network and of its traffic."""
    network, traffic = os.path.join(work, "network.json"), os.path.join(work, "traffic.json")
    with open(network, "w") as file:
        json.dump(chain_network(), file)
    with open(traffic, "w") as file:
        json.dump({"classes": [{"name": "all", "paths": [[{"device": "d1", "interface": "eth0", "direction": "ingress"}]]}]}, file)
    return network, traffic


def seconds(program, network, traffic, path, run, size):
    text, wanted = run(size)
    with open(path, "w") as file:
        file.writelines(text)
    best = None
    for _ in range(5):
        start = time.monotonic()
        printed = subprocess.run([program, "replay", network, traffic, path], stdout=subprocess.PIPE, check=True).stdout.decode()
        taken = time.monotonic() - start
        if printed != wanted:
            sys.exit("printed %r instead of %r" % (printed[:200], wanted[:200]))
        best = taken if best is None else min(best, taken)
    return best


def compare(what, size, time_of):
    first, second = time_of(size), time_of(2 * size)
    print("%s: %d %.3f s, %d %.3f s, %.2f times as long" % (what, size, first, 2 * size, second, second / first))
    return second <= 2.5 * first


def main(program, example, work):
    path, documents = os.path.join(work, "run.txt"), chain_documents(work)
    alone = (example + "/network.json", example + "/traffic.json")
    done = [
        compare("steps of one record", 100_000, lambda size: seconds(program, *alone, path, one_record, size)),
        compare("packets into a chain", 50_000, lambda size: seconds(program, *documents, path, chain, size)),
    ]
    return 0 if all(done) else 1


if __name__ == "__main__":
    sys.exit(main(*sys.argv[1:]))
