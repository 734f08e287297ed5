#!/usr/bin/env python3
"""Audits generated networks, and has each answer verified by the program's own checker or by `confirm`.

usage: generated_networks.py PROGRAM [--networks N] [--seed S] [--examples]

Small networks of meters, mediators and a collector are drawn at random: filters, keys, export modes, destinations without a link,
aggregations with matches, classes that overlap or are exempt. `audit` must print a certificate to which `check` says yes, or a
refutation that `confirm` confirms; none of them is so large that `unknown 601` would be right. The last line is
`N passed, N failed`; a failing network is printed.

  --examples  the networks of examples/ instead
"""
import argparse
import glob
import json
import os
import random
import sys
import tempfile

from program import run

AXES = {
    "sourceIPv4Address": ["10.0.0.0/8", "10.1.2.3", "10.0.0.1-10.0.0.9"],
    "destinationIPv4Address": ["192.0.2.0/24", "192.0.2.1"],
    "protocolIdentifier": ["6", "17", "0-16"],
    "sourceTransportPort": ["0-1023", "443"],
    "destinationTransportPort": ["53", "1024-65535"],
    "ipClassOfService": ["0", "184"],
    "ipVersion": ["4", "6"],
    "sourceIPv6Address": ["2001:db8::/32", "2001:db8::1", "::-2001:db8:ffff:ffff::"],
    "destinationIPv6Address": ["2001:DB8::192.0.2.1", "fe80::/10"],
}
FILTERS = [
    ("sourceIPv4Prefix", "0.0.0.0/1"),
    ("sourceIPv4Prefix", "10.0.0.0/8"),
    ("sourceIPv4Address", "10.1.2.3"),
    ("destinationIPv4Prefix", "192.0.2.0/25"),
    ("protocolIdentifier", "6"),
    ("destinationTransportPort", "53"),
    ("ipClassOfService", "0"),
    ("ipVersion", "4"),
    ("ipVersion", "6"),
    ("sourceIPv6Prefix", "::/1"),
    ("destinationIPv6Prefix", "fe80::/10"),
    ("sourceIPv6Address", "2001:db8::1"),
]
COUNTERS = [{"name": "octets", "ieId": 1}, {"name": "packets", "ieId": 2}]
MODULE = "ietf-ipfix-psamp:ipfix"


def some(draw, things, least=1, most=None):
    """Some of these things, in their order."""
    least = min(least, len(things))
    count = draw.randint(least, min(most or len(things), len(things)))
    chosen = draw.sample(range(len(things)), count)
    return [it for place, it in enumerate(things) if place in chosen]


def filter_match(draw):
    name, value = draw.choice(FILTERS)
    return {"ieName": name, "value": value}


def exporter(draw, name, most=3):
    """An exporting process with up to this many destinations."""
    made = {"name": name, "destination": [{"name": f"d{k}", "udpExporter": {}} for k in range(draw.randint(1, most))]}
    mode = draw.choice(["parallel", "parallel", "loadBalancing", "fallback"])
    return made if mode == "parallel" else {**made, "exportMode": mode}


def key_field(draw, name):
    """A field of an aggregation's or the report's key: an address may be a prefix."""
    if name.endswith("Address") and draw.random() < 0.4:
        return {"ieName": name.replace("Address", "Prefix"), "prefixLength": draw.choice([8, 16, 24] + [64, 127] * ("IPv6" in name))}
    return {"ieName": name}


def meter(draw, name, plain):
    exporters = [exporter(draw, f"ex{k}", 1 if plain else 3) for k in range(1 if plain else draw.randint(1, 2))]
    caches = []
    for k in range(draw.randint(1, 2)):
        keys = [{"name": it, "ieName": it, "isFlowKey": [None]} for it in some(draw, list(AXES), len(AXES) if plain else 1)]
        named = some(draw, [it["name"] for it in exporters], 0 if draw.random() < 0.1 else 1)
        caches.append({"name": f"cache{k}", "timeoutCache": {"cacheLayout": {"cacheField": keys + COUNTERS}}, "exportingProcess": named})
    processes = []
    for k in range(draw.randint(1, 2)):
        selectors = [{"name": "all", "selectAll": [None]}]
        if draw.random() < 0.5:
            selectors.append({"name": "some", "filterMatch": filter_match(draw)})
        made = {"name": f"sp{k}", "selector": selectors}
        processes.append(made if draw.random() < 0.1 else {**made, "cache": draw.choice(caches)["name"]})
    points = []
    for k in range(1 if plain else draw.randint(1, 2)):
        named = some(draw, [it["name"] for it in processes], 1, 1 if plain else 2)
        point = {"name": f"op{k}", "observationDomainId": k, "ifName": some(draw, ["eth0", "eth1"], 2 if plain else 1), "selectionProcess": named}
        points.append({**point, "direction": "both" if plain else draw.choice(["ingress", "egress", "both"])})
    config = {"observationPoint": points, "selectionProcess": processes, "cache": caches, "exportingProcess": exporters}
    return {"name": name, "config": {MODULE: config}}


def mediator(draw, name, plain):
    exporters = [exporter(draw, f"ex{k}", 1 if plain else 3) for k in range(1 if plain else draw.randint(1, 2))]
    names = [it["name"] for it in exporters]
    process = {"name": "cp"}
    if draw.random() < 0.6:
        process["exportingProcess"] = some(draw, names)
    if draw.random() < 0.6:
        aggregation = {"name": "by key", "exportingProcess": some(draw, names)}
        aggregation["key"] = [key_field(draw, it) for it in some(draw, list(AXES), 1, 2)]
        if draw.random() < 0.5:
            aggregation["match"] = [filter_match(draw)]
        process["once-audit:aggregation"] = [aggregation]
    return {"name": name, "config": {MODULE: {"exportingProcess": exporters, "collectingProcess": [process]}}}


def network(draw):
    """Half of the networks are plain: one meter that sees all packets with all keys, and one way for each record."""
    plain = draw.random() < 0.5
    meters = [meter(draw, f"m{k}", plain) for k in range(1 if plain else draw.randint(1, 2))]
    mediators = [mediator(draw, f"a{k}", plain) for k in range(draw.randint(0, 2))]
    collector = {"name": "c", "config": {MODULE: {"collectingProcess": [{"name": "cp"}]}}}
    later = [it["name"] for it in mediators] + ["c"]
    links = []
    for device in meters + mediators:
        behind = later[later.index(device["name"]) + 1 :] if device["name"] in later else later
        for process in device["config"][MODULE]["exportingProcess"]:
            for destination in process["destination"]:
                if plain or draw.random() < 0.75:
                    link = {"device": device["name"], "exportingProcess": process["name"], "destination": destination["name"]}
                    links.append({**link, "toDevice": draw.choice(behind), "toProcess": "cp"})
    key = [key_field(draw, it) for it in some(draw, list(AXES), 0, 1 if plain else 2)]
    report = {"device": "c", "collectingProcess": "cp", "key": key}
    return {"devices": meters + mediators + [collector], "links": links, "report": report}


def traffic(draw, meters):
    """Two in three paths have one crossing."""
    classes = []
    for k in range(draw.randint(1, 2)):
        region = {it: draw.choice(AXES[it]) for it in some(draw, list(AXES), 0, 2)}
        paths = []
        for _ in range(draw.randint(1, 2)):
            crossing = lambda: {"device": draw.choice(meters), "interface": draw.choice(["eth0", "eth1"]), "direction": draw.choice(["ingress", "egress"])}
            paths.append([crossing() for _ in range(draw.choice([0, 1, 1, 1, 1, 2]))])
        made = {"name": f"class {k}", "region": region, "paths": paths}
        classes.append({**made, "exempt": True} if draw.random() < 0.2 else made)
    return {"classes": classes}


def asked(program, room, command, *files):
    ran = run([program, command, *files], room)
    return ran.returncode, ran.stdout


def verdict(program, room, documents):
    """What is wrong with the audit of these documents, or what it came to."""
    for name, document in zip(("network.json", "traffic.json"), documents):
        with open(os.path.join(room, name), "w", encoding="utf-8") as file:
            json.dump(document, file)
    status, answer = asked(program, room, "audit", "network.json", "traffic.json")
    with open(os.path.join(room, "answer"), "wb") as file:
        file.write(answer)
    if status == 0 and answer.startswith(b"once-certificate "):
        judged = asked(program, room, "check", "network.json", "traffic.json", "answer")
        return (None, "certificate") if judged == (0, b"yes\n") else (judged, None)
    if status == 1 and answer.startswith(b"once-refutation "):
        judged = asked(program, room, "confirm", "network.json", "traffic.json", "answer")
        return (None, "refutation") if judged[0] == 0 and judged[1].startswith(b"refuted\n") else (judged, None)
    return (status, answer[:200]), None


def generated(draw, count):
    """So many networks with their traffic, by number."""
    for number in range(count):
        net = network(draw)
        yield f"network {number}", (net, traffic(draw, [it["name"] for it in net["devices"] if it["name"].startswith("m")]))


def examples():
    """The networks of examples/ with their traffic, by folder."""
    top = os.path.dirname(os.path.dirname(os.path.realpath(__file__)))
    for network_file in sorted(glob.glob(os.path.join(top, "examples", "*", "network.json"))):
        folder = os.path.dirname(network_file)
        documents = [json.load(open(os.path.join(folder, name), encoding="utf-8")) for name in ("network.json", "traffic.json")]
        yield os.path.basename(folder), documents


def main():
    parser = argparse.ArgumentParser(usage=__doc__.split("usage: ")[1].split("\n")[0])
    parser.add_argument("program", type=os.path.abspath)
    parser.add_argument("--networks", type=int, default=2000)
    parser.add_argument("--seed", type=int, default=1)
    parser.add_argument("--examples", action="store_true")
    words = parser.parse_args()
    given = examples() if words.examples else generated(random.Random(words.seed), words.networks)
    counts, failed = {"certificate": 0, "refutation": 0}, 0
    with tempfile.TemporaryDirectory() as room:
        for name, documents in given:
            wrong, found = verdict(words.program, room, documents)
            if wrong:
                failed += 1
                print(f"{name}: {wrong}\n{json.dumps(documents[0])}\n{json.dumps(documents[1])}")
            else:
                counts[found] += 1
    print(f"{counts['certificate']} certificates, {counts['refutation']} refutations")
    print(f"{sum(counts.values())} passed, {failed} failed")
    return 1 if failed else 0


if __name__ == "__main__":
    sys.exit(main())
