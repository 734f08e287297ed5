#!/usr/bin/env python3
"""make_provider.py FOLDER [--routers N] [--mistake]

Writes FOLDER/network.json and FOLDER/traffic.json: a provider with sites of 50 routers, and five traffic classes for each
router. A site has 44 edge routers with customers, four border routers with peers, and two core routers, which meter nothing.
Edge and border routers meter what comes in from outside, in four selection processes by destination, and send those records to
one of the two mediators of their region (five sites), which total them by /24 of the source and send them to the billing host.
What they meter on the way out goes to the planning host. Paths have up to eight crossings. With --mistake one edge router
observes both directions where it should observe what comes in, so packets to its customers are billed twice.
"""
import argparse
import json
import os
import random

SITE, EDGES, BORDERS, REGION = 50, 44, 4, 5
MODULE = "ietf-ipfix-psamp:ipfix"
KEYS = [{"name": name, "ieName": name, "isFlowKey": [None]} for name in (
    "sourceIPv4Address", "destinationIPv4Address", "protocolIdentifier", "sourceTransportPort", "destinationTransportPort")]
COUNTERS = [{"name": name, "ieName": name} for name in ("octetDeltaCount", "packetDeltaCount")]
OUTSIDE, INSIDE = ["ge-0/0/%d" % port for port in range(8)], ["et-0/1/0", "et-0/1/1"]


def cache(name, keys, process):
    settings = {"activeTimeout": 60, "idleTimeout": 15, "cacheLayout": {"cacheField": keys + COUNTERS}}
    return {"name": name, "timeoutCache": settings, "exportingProcess": [process]}


def exporter(name, destinations, mode="parallel"):
    return {"name": name, "exportMode": mode, "destination": [{"name": one, "tcpExporter": {}} for one in destinations]}


def boundary(name, domain, mediators, mistake):
    """An edge or border router."""
    shares = [("to " + share, {"ieName": "destinationIPv4Prefix", "value": share})
              for share in ("0.0.0.0/2", "64.0.0.0/2", "128.0.0.0/2", "192.0.0.0/2")]
    selections = [{"name": share, "selector": [{"name": "share", "filterMatch": match}], "cache": "billed"} for share, match in shares]
    selections.append({"name": "all", "selector": [{"name": "all", "selectAll": [None]}], "cache": "planned"})
    direction = "both" if mistake else "ingress"
    return {"name": name, "config": {MODULE: {
        "observationPoint": [
            {"name": "from outside", "observationDomainId": domain, "ifName": OUTSIDE, "direction": direction,
             "selectionProcess": [share for share, _ in shares]},
            {"name": "to outside", "observationDomainId": domain, "ifName": OUTSIDE, "direction": "egress", "selectionProcess": ["all"]}],
        "selectionProcess": selections,
        "cache": [cache("billed", KEYS, "to mediators"), cache("planned", KEYS[1:2], "to planning")],
        "exportingProcess": [exporter("to mediators", mediators, "fallback"), exporter("to planning", ["planning"])],
    }}}


def mediator(name):
    key = [{"ieName": "sourceIPv4Prefix", "prefixLength": 24}]
    process = {"name": "routers", "once-audit:aggregation": [{"name": "by customer", "key": key, "exportingProcess": ["to billing"]}]}
    return {"name": name, "config": {MODULE: {"exportingProcess": [exporter("to billing", ["billing"])], "collectingProcess": [process]}}}


def host(name, process):
    return {"name": name, "config": {MODULE: {"collectingProcess": [{"name": process}]}}}


def link(device, exporting, destination, to_device, to_process):
    return {"device": device, "exportingProcess": exporting, "destination": destination, "toDevice": to_device, "toProcess": to_process}


class Provider:
    """Sites with their routers, by name."""

    def __init__(self, sites):
        self.sites = range(sites)
        self.edges = [["edge-%02d-%02d" % (site, number) for number in range(EDGES)] for site in self.sites]
        self.borders = [["border-%02d-%d" % (site, number) for number in range(BORDERS)] for site in self.sites]
        self.cores = [["core-%02d-%d" % (site, number) for number in range(SITE - EDGES - BORDERS)] for site in self.sites]

    def mediators(self, site):
        return ["mediator-%d-%s" % (site // REGION, one) for one in "ab"]

    def network(self, mistake):
        devices, links, domain = [], [], 0
        for site in self.sites:
            for name in self.edges[site] + self.borders[site]:
                domain += 1
                devices.append(boundary(name, domain, self.mediators(site), name == mistake))
                links += [link(name, "to mediators", one, one, "routers") for one in self.mediators(site)]
                links.append(link(name, "to planning", "planning", "planning-host", "planning"))
            devices += [{"name": name, "config": {MODULE: {}}} for name in self.cores[site]]
        for name in dict.fromkeys(one for site in self.sites for one in self.mediators(site)):
            devices.append(mediator(name))
            links.append(link(name, "to billing", "billing", "billing-host", "billing"))
        devices += [host("billing-host", "billing"), host("planning-host", "planning")]
        key = [{"ieName": "sourceIPv4Prefix", "prefixLength": 24}]
        return {"devices": devices, "links": links, "report": {"device": "billing-host", "collectingProcess": "billing", "key": key}}

    def path(self, into, out):
        """The crossings of a packet from one (site, router, port) to another, through a core router of each site."""
        hops = [(into[1], OUTSIDE[into[2]], INSIDE[0])]
        for site in dict.fromkeys((into[0], out[0])):
            hops.append((self.cores[site][into[2] % 2], "et-0/0/0", "et-0/0/1"))
        hops.append((out[1], INSIDE[0], OUTSIDE[out[2]]))
        return [{"device": device, "interface": interface, "direction": direction}
                for device, *interfaces in hops for interface, direction in zip(interfaces, ("ingress", "egress"))]

    def customer(self, number):
        """A class for a customer's packets: to the site's peers, from them, to another customer of the region, or to any."""
        draw = random.Random("customer %d" % number)
        site, at = number % len(self.sites), number // len(self.sites)
        port = at // EDGES % len(OUTSIDE)
        edge, ours = (site, self.edges[site][at % EDGES], port), "10.%d.%d.0/24" % divmod(number, 256)
        borders = [(site, self.borders[site][(at + more) % BORDERS], port) for more in range(2)]
        kind = at // EDGES % 5
        region = {"ipVersion": "4", "destinationIPv4Address" if kind == 2 else "sourceIPv4Address": ours}
        if kind < 2:
            paths = [self.path(edge, border) for border in borders]
        elif kind == 2:
            paths = [self.path(border, edge) for border in borders]
        else:
            first = site // REGION * REGION
            near = draw.randrange(first, min(first + REGION, len(self.sites)))
            there = near if kind == 3 else draw.randrange(len(self.sites))
            paths = [self.path(edge, (there, self.edges[there][draw.randrange(EDGES)], draw.randrange(len(OUTSIDE))))]
        return {"name": "customer %05d" % number, "region": region, "paths": paths}

    def management(self, site):
        """A class for packets between routers, which must never be counted."""
        path = [{"device": self.cores[site][0], "interface": "et-0/0/1", "direction": "egress"},
                {"device": self.edges[site][0], "interface": INSIDE[0], "direction": "ingress"}]
        return {"name": "management of site %02d" % site, "region": {"sourceIPv4Address": "172.16.0.0/12"}, "exempt": [None], "paths": [path]}

    def traffic(self):
        count = 5 * SITE * len(self.sites) - len(self.sites)
        return {"classes": [self.management(site) for site in self.sites] + [self.customer(number) for number in range(count)]}


def main():
    parser = argparse.ArgumentParser(usage=__doc__.split("\n")[0], description=__doc__.split("\n\n")[1])
    parser.add_argument("folder")
    parser.add_argument("--routers", type=int, default=2_000)
    parser.add_argument("--mistake", action="store_true")
    words = parser.parse_args()
    sites = words.routers // SITE
    if words.routers % SITE or not 1 <= sites <= 99:
        parser.error("50, 100, 150 .. 4,950 routers")
    provider = Provider(sites)
    mistake = provider.edges[sites // 2][EDGES // 2] if words.mistake else ""
    os.makedirs(words.folder, exist_ok=True)
    for name, document in (("network", provider.network(mistake)), ("traffic", provider.traffic())):
        with open(os.path.join(words.folder, name + ".json"), "w", encoding="utf-8") as file:
            json.dump(document, file, separators=(",", ":"))


if __name__ == "__main__":
    main()
