"""Draws small networks that count each packet once, with their traffic, and puts one mistake into most of them.

One or two meters share the packets of a path among selection processes by filters; their records come to a collector straight or by a
mediator, some also to a second collector that nobody asks. generated_networks.py draws networks without such a plan.
"""
import random
from typing import Any, Callable, Dict, List, Tuple

from generated_networks import COUNTERS, MODULE

Object = Dict[str, Any]
Drawn = random.Random

# Filters that share all packets: each packet passes just one of a list.
SHARES: Tuple[Tuple[Tuple[str, str], ...], ...] = (
    (("sourceIPv4Prefix", "0.0.0.0/1"), ("sourceIPv4Prefix", "128.0.0.0/1")),
    (("destinationIPv4Prefix", "0.0.0.0/1"), ("destinationIPv4Prefix", "128.0.0.0/1")),
    (("sourceIPv6Prefix", "::/1"), ("sourceIPv6Prefix", "8000::/1")),
)
REGIONS: Tuple[Dict[str, str], ...] = (
    {}, {"ipVersion": "4"}, {"sourceIPv4Address": "10.0.0.0/8"}, {"protocolIdentifier": "6", "destinationTransportPort": "80-443"},
    {"destinationIPv6Address": "2001:db8::/32", "ipVersion": "6"}, {"sourceIPv4Address": "100.0.0.0-200.0.0.0"},
)
KEYS: Tuple[List[Object], ...] = (
    [], [{"ieName": "sourceIPv4Address"}], [{"ieName": "sourceIPv4Prefix", "prefixLength": 16}],
    [{"ieName": "protocolIdentifier"}, {"ieName": "destinationIPv6Prefix", "prefixLength": 64}], [{"ieId": 12}, {"ieName": "ipVersion"}],
)
ELEMENTS = ["sourceIPv4Address", "destinationIPv4Address", "protocolIdentifier", "sourceTransportPort", "destinationTransportPort",
            "ipClassOfService", "ipVersion", "sourceIPv6Address", "destinationIPv6Address"]
MODES = ("parallel", "loadBalancing", "fallback", "ietf-ipfix-psamp:loadBalancing")


def config(device: Object) -> Object:
    found: Object = device["config"][MODULE]
    return found


def device_named(name: str, configuration: Object) -> Object:
    return {"name": name, "config": {MODULE: configuration}}


def exporter(name: str, destinations: List[str], mode: str = "parallel") -> Object:
    made = {"name": name, "destination": [{"name": it, "tcpExporter": {}} for it in destinations]}
    return made if mode == "parallel" else {**made, "exportMode": mode}


def link(device: str, process: str, destination: str, to: str, to_process: str = "collect") -> Object:
    return {"device": device, "exportingProcess": process, "destination": destination, "toDevice": to, "toProcess": to_process}


def cache(name: str, elements: List[str], exporters: List[str], kind: str = "timeoutCache") -> Object:
    keys: List[Object] = [{"name": it, "ieName": it, "isFlowKey": [None]} for it in elements]
    return {"name": name, kind: {"cacheLayout": {"cacheField": [*keys, *COUNTERS]}}, "exportingProcess": exporters}


def selection(name: str, filters: List[Tuple[str, str]], to: str = "flows") -> Object:
    tests: List[Object] = [
        {"name": f"filter {at}", "filterMatch": {"ieName": element, "value": value}} for at, (element, value) in enumerate(filters)]
    return {"name": name, "selector": tests or [{"name": "all", "selectAll": [None]}], "cache": to}


def meter(draw: Drawn, name: str, filters: List[Tuple[str, str]], to: str) -> Object:
    """Returns a meter with a selection process for each of these filters, or one for all packets."""
    processes = [selection(f"share {at}", [it]) for at, it in enumerate(filters)] or [selection("all packets", [])]
    draw.shuffle(processes)
    points = [{"name": "in side", "observationDomainId": 1, "ifName": ["eth0"], "direction": "ingress",
               "selectionProcess": [it["name"] for it in processes]}]
    if draw.random() < 0.3:
        spare = {"name": "spare", "observationDomainId": 2, "ifName": ["eth9"], "selectionProcess": [processes[0]["name"]]}
        points.insert(draw.randrange(2), spare)
    kind = draw.choice(["timeoutCache", "naturalCache", "permanentCache", "immediateCache"])
    exporters = [exporter("to collector", [to])]
    if draw.random() < 0.3:
        exporters = [exporter("to collector", [to, f"{to} again"], draw.choice(MODES[1:]))]
    caches = [cache("flows", ELEMENTS, ["to collector"], kind)]
    return device_named(name, {"observationPoint": points, "selectionProcess": processes, "cache": caches, "exportingProcess": exporters})


def mediator(draw: Drawn, key: List[Object]) -> Object:
    """Returns a mediator that forwards records, or adds them up by the report's key, some of them by halves."""
    process: Object = {"name": "collect"}
    if draw.random() < 0.4:
        process["exportingProcess"] = ["onward"]
    else:
        halves = draw.choice(SHARES) if draw.random() < 0.4 else ()
        process["once-audit:aggregation"] = [
            {"name": f"half {at}", "key": key, "match": [{"ieName": element, "value": value}], "exportingProcess": ["onward"]}
            for at, (element, value) in enumerate(halves)
        ] or [{"name": "by key", "key": key, "exportingProcess": ["onward"]}]
    return device_named("mediator", {"collectingProcess": [process], "exportingProcess": [exporter("onward", ["up"])]})


def right(draw: Drawn) -> Tuple[Object, Object]:
    """Returns a network and its traffic without a mistake."""
    key, share = draw.choice(KEYS), draw.choice(SHARES)
    how = draw.choice(["one", "one", "shared", "two"])
    lists: Dict[str, List[List[Tuple[str, str]]]] = {"one": [[]], "shared": [list(share)], "two": [[share[0]], [share[1]]]}
    filters = lists[how]
    names = [f"meter-{at}" for at, _ in enumerate(filters, 1)]
    between = draw.random() < 0.5
    to = "mediator" if between else "billing"
    devices = [meter(draw, name, own, to) for name, own in zip(names, filters)]
    links = [link(it["name"], "to collector", end["name"], to)
             for it in devices for end in config(it)["exportingProcess"][0]["destination"]]
    if between:
        devices.append(mediator(draw, key))
        links.append(link("mediator", "onward", "up", "billing"))
    devices.append(device_named("billing", {"collectingProcess": [{"name": "other"}, {"name": "collect"}]}))
    if len(devices) < 4 and draw.random() < 0.5:
        devices.append(device_named("archive", {"collectingProcess": [{"name": "collect"}]}))
        links += copied_to_archive(devices[:len(names)])
    draw.shuffle(links)
    network = {"devices": devices, "links": links, "report": {"device": "billing", "collectingProcess": "collect", "key": key}}
    path = [{"device": name, "interface": interface, "direction": direction} for name in names
            for interface, direction in (("eth0", "ingress"), ("eth1", "egress"))]
    classes: List[Object] = [{"name": "customers", "region": draw.choice(REGIONS), "paths": [path]}]
    if draw.random() < 0.3:
        classes.insert(draw.randrange(2), {"name": "the rest", "exempt": draw.choice([True, [None]]), "paths": [[]]})
    return network, {"classes": classes}


def copied_to_archive(meters: List[Object]) -> List[Object]:
    """Has meters that send to all of their destinations send to the archive too; returns the links."""
    links = []
    for device in meters:
        process = config(device)["exportingProcess"][0]
        if "exportMode" not in process:
            process["destination"].append({"name": "archive", "sctpExporter": {}})
            links.append(link(device["name"], "to collector", "archive", "archive"))
    return links


# ---- mistakes

Mistake = Callable[[Drawn, Object, Object], None]


def first_meter(draw: Drawn, network: Object) -> Object:
    return draw.choice([it for it in network["devices"] if it["name"].startswith("meter")])


def metered_where_packets_leave(draw: Drawn, network: Object, traffic: Object) -> None:
    own = config(first_meter(draw, network))
    named = [it["name"] for it in own["selectionProcess"]]
    own["observationPoint"].append(
        {"name": "out side", "observationDomainId": 3, "ifName": ["eth1"], "direction": "egress", "selectionProcess": named})


def metered_twice_at_a_point(draw: Drawn, network: Object, traffic: Object) -> None:
    own = config(first_meter(draw, network))
    own["selectionProcess"].append(selection("once more", []))
    point = next(it for it in own["observationPoint"] if it["name"] == "in side")
    point["selectionProcess"].append("once more")


def seen_at_both_interfaces(draw: Drawn, network: Object, traffic: Object) -> None:
    point = next(it for it in config(first_meter(draw, network))["observationPoint"] if it["name"] == "in side")
    point["ifName"] = ["eth0", "eth1"]
    del point["direction"]


def sent_twice(draw: Drawn, network: Object, traffic: Object) -> None:
    device = first_meter(draw, network)
    own = config(device)
    to = next(it for it in network["links"] if it["device"] == device["name"])
    if draw.random() < 0.5:
        own["exportingProcess"].append(exporter("second", ["copy"]))
        own["cache"][0]["exportingProcess"].append("second")
        network["links"].append({**to, "exportingProcess": "second", "destination": "copy"})
    else:
        own["exportingProcess"][0] = exporter("to collector", [it["name"] for it in own["exportingProcess"][0]["destination"]] + ["copy"])
        network["links"].append({**to, "destination": "copy"})


def forwarded_twice(draw: Drawn, network: Object, traffic: Object) -> None:
    for device in network["devices"]:
        if device["name"] == "mediator":
            process = config(device)["collectingProcess"][0]
            process["exportingProcess"] = ["onward"]
            process.setdefault("once-audit:aggregation", []).append({"name": "too much", "exportingProcess": ["onward"], "key": []})


def seen_nowhere(draw: Drawn, network: Object, traffic: Object) -> None:
    point = next(it for it in config(first_meter(draw, network))["observationPoint"] if it["name"] == "in side")
    point.update(draw.choice([{"ifName": ["eht0"]}, {"direction": "egress"}, {"selectionProcess": []}]))


def without_a_cache(draw: Drawn, network: Object, traffic: Object) -> None:
    del draw.choice(config(first_meter(draw, network))["selectionProcess"])["cache"]


def left_out_by_a_filter(draw: Drawn, network: Object, traffic: Object) -> None:
    process = draw.choice(config(first_meter(draw, network))["selectionProcess"])
    test = {"ieName": draw.choice(["protocolIdentifier", "ipVersion"]), "value": "6"}
    process["selector"].append({"name": "too much", "filterMatch": test})


def without_a_link(draw: Drawn, network: Object, traffic: Object) -> None:
    network["links"].remove(draw.choice(network["links"]))


def linked_elsewhere(draw: Drawn, network: Object, traffic: Object) -> None:
    draw.choice(network["links"]).update({"toDevice": "billing", "toProcess": "other"})


def without_an_exporter(draw: Drawn, network: Object, traffic: Object) -> None:
    config(first_meter(draw, network))["cache"][0]["exportingProcess"] = []


def one_of_two_collects(draw: Drawn, network: Object, traffic: Object) -> None:
    """A destination is added that nobody collects, or whose records are counted twice."""
    device = first_meter(draw, network)
    process = config(device)["exportingProcess"][0]
    process.update({"exportMode": draw.choice(MODES[1:])})
    process["destination"].insert(draw.randrange(2), {"name": "new", "udpExporter": {}})
    if draw.random() < 0.5:
        network["links"].append(link(device["name"], "to collector", "new", "billing", "other"))


def without_a_key_field(draw: Drawn, network: Object, traffic: Object) -> None:
    network["report"]["key"] = [{"ieName": "sourceIPv4Address"}]
    kept = [it for it in ELEMENTS if it != "sourceIPv4Address"]
    made = config(first_meter(draw, network))["cache"][0]
    made.update({kind: cache("", kept, [])["timeoutCache"] for kind in made if kind.endswith("Cache")})


def aggregated_too_much(draw: Drawn, network: Object, traffic: Object) -> None:
    network["report"]["key"] = [{"ieName": "destinationIPv4Prefix", "prefixLength": 24}]
    for device in network["devices"]:
        for aggregation in config(device).get("collectingProcess", [{}])[0].get("once-audit:aggregation", []):
            aggregation["key"] = draw.choice([[], [{"ieName": "destinationIPv4Prefix", "prefixLength": 16}], [{"ieId": 4}]])


def exempt_and_metered(draw: Drawn, network: Object, traffic: Object) -> None:
    traffic["classes"][-1]["exempt"] = True
    traffic["classes"][-1]["paths"] = [one for it in traffic["classes"] for one in it["paths"] if one]


def counted_once_and_unassigned(draw: Drawn, network: Object, traffic: Object) -> None:
    own = config(first_meter(draw, network))
    own["cache"].append(cache("coarse", ["ipVersion"], ["to collector"]))
    own["selectionProcess"].append(selection("coarsely", [], "coarse"))
    own["observationPoint"].append({"name": "both", "observationDomainId": 4, "ifName": ["eth1"], "selectionProcess": ["coarsely"]})


MISTAKES: Tuple[Mistake, ...] = (
    metered_where_packets_leave, metered_twice_at_a_point, seen_at_both_interfaces, sent_twice, forwarded_twice, seen_nowhere,
    without_a_cache, left_out_by_a_filter, without_a_link, linked_elsewhere, without_an_exporter, one_of_two_collects,
    one_of_two_collects, one_of_two_collects, without_a_key_field, aggregated_too_much, exempt_and_metered, counted_once_and_unassigned,
)
# How many networks in a hundred have no mistake.
RIGHT = 30


def documents(draw: Drawn) -> Tuple[Object, Object]:
    """Returns a network and its traffic with one mistake, or none."""
    network, traffic = right(draw)
    if draw.randrange(100) >= RIGHT:
        draw.choice(MISTAKES)(draw, network, traffic)
    return network, traffic
