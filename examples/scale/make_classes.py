#!/usr/bin/env python3
"""make_classes.py FOLDER [--classes N] [--routers N] [--filters N] [--twice N]

Writes FOLDER/network.json and FOLDER/traffic.json. The network has edge routers that meter what comes in at eth0 in as
many selection processes as there are filters, each for its share of the destinations, and a billing host that totals by
the first 24 bits of the source. The traffic has a class for each customer: a /24 of 10.0.0.0/8 that comes in at one of the
routers. The packets of class number --twice go through two routers, and are counted twice.
"""
import argparse
import json
import os


def shares(filters):
    """Yields the destinations, cut into this many prefixes, a power of two."""
    bits = filters.bit_length() - 1
    if filters != 1 << bits or not 1 <= bits <= 7:
        raise SystemExit("--filters takes 2, 4, 8 .. 128")
    for number in range(filters):
        yield "%d.0.0.0/%d" % (number << 8 - bits, bits)


def router(name, filters):
    fields = [
        {"name": "source", "ieName": "sourceIPv4Address", "isFlowKey": [None]},
        {"name": "octets", "ieName": "octetDeltaCount"},
        {"name": "packets", "ieName": "packetDeltaCount"},
    ]
    selections = [
        {"name": "to " + share, "selector": [{"name": "share", "filterMatch": {"ieName": "destinationIPv4Prefix", "value": share}}],
         "cache": "flows"}
        for share in shares(filters)
    ]
    return {"name": name, "config": {"ietf-ipfix-psamp:ipfix": {
        "observationPoint": [{"name": "customers", "observationDomainId": 0, "ifName": ["eth0"], "direction": "ingress",
                              "selectionProcess": [selection["name"] for selection in selections]}],
        "selectionProcess": selections,
        "cache": [{"name": "flows", "timeoutCache": {"cacheLayout": {"cacheField": fields}}, "exportingProcess": ["to billing"]}],
        "exportingProcess": [{"name": "to billing", "destination": [{"name": "billing", "tcpExporter": {}}]}],
    }}}


def network(routers, filters):
    devices = [router(name, filters) for name in routers]
    devices.append({"name": "billing-host", "config": {"ietf-ipfix-psamp:ipfix": {"collectingProcess": [{"name": "routers"}]}}})
    links = [{"device": name, "exportingProcess": "to billing", "destination": "billing", "toDevice": "billing-host",
              "toProcess": "routers"} for name in routers]
    key = [{"ieName": "sourceIPv4Prefix", "prefixLength": 24}]
    return {"devices": devices, "links": links, "report": {"device": "billing-host", "collectingProcess": "routers", "key": key}}


def customer(number, routers, twice):
    into = [routers[(number + more) % len(routers)] for more in range(2 if twice else 1)]
    path = [{"device": name, "interface": interface, "direction": direction}
            for name in into for interface, direction in (("eth0", "ingress"), ("eth1", "egress"))]
    region = {"sourceIPv4Address": "10.%d.%d.0/24" % divmod(number - 1, 256), "ipVersion": "4"}
    return {"name": "customer %05d" % number, "region": region, "paths": [path]}


def main():
    parser = argparse.ArgumentParser(usage=__doc__.split("\n")[0], description=__doc__.split("\n\n")[1])
    parser.add_argument("folder")
    parser.add_argument("--classes", type=int, default=10_000)
    parser.add_argument("--routers", type=int, default=32)
    parser.add_argument("--filters", type=int, default=64)
    parser.add_argument("--twice", type=int, default=0)
    words = parser.parse_args()
    if not 1 <= words.classes <= 65_536 or not 2 <= words.routers <= 63:
        parser.error("1 to 65,536 classes, 2 to 63 routers")
    routers = ["edge-%02d" % number for number in range(1, words.routers + 1)]
    classes = [customer(number, routers, number == words.twice) for number in range(1, words.classes + 1)]
    os.makedirs(words.folder, exist_ok=True)
    for name, document in (("network", network(routers, words.filters)), ("traffic", {"classes": classes})):
        with open(os.path.join(words.folder, name + ".json"), "w", encoding="utf-8") as file:
            json.dump(document, file, indent=1)


if __name__ == "__main__":
    main()
