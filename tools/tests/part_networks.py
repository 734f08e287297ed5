"""Small networks for the tests of once-part, written out by functions of a line or two each."""
from __future__ import annotations

import json
from pathlib import Path
from typing import Any

Json = dict[str, Any]
MODULE = "ietf-ipfix-psamp:ipfix"
COUNTERS = [{"name": "octets", "ieId": 1}, {"name": "packets", "ieName": "packetDeltaCount"}]


def selection(name: str, *filters: tuple[str, str], cache: str | None = "flows") -> Json:
    selectors = [{"name": f"{number}", "filterMatch": {"ieName": element, "value": value}} for number, (element, value) in enumerate(filters)]
    found = {"name": name, "selector": selectors or [{"name": "all", "selectAll": [None]}]}
    return {**found, "cache": cache} if cache else found


def point(name: str, interfaces: list[str], direction: str, processes: list[str]) -> Json:
    return {"name": name, "observationDomainId": 1, "ifName": interfaces, "direction": direction, "selectionProcess": processes}


def cache(name: str, keys: list[str], exporters: list[str]) -> Json:
    fields = [{"name": one, "ieName": one, "isFlowKey": [None]} for one in keys] + COUNTERS
    return {"name": name, "timeoutCache": {"cacheLayout": {"cacheField": fields}}, "exportingProcess": exporters}


def exporter(name: str, *destinations: str, mode: str = "parallel") -> Json:
    return {"name": name, "exportMode": mode, "destination": [{"name": one, "udpExporter": {}} for one in destinations]}


def device(name: str, **lists: list[Json]) -> Json:
    return {"name": name, "config": {MODULE: lists}}


def meter(name: str, *selections: Json, keys: tuple[str, ...] = ("sourceIPv4Address", "destinationIPv4Address")) -> Json:
    """Returns a router that meters what comes in at eth0."""
    kept = list(selections) or [selection("all")]
    return device(name, observationPoint=[point("in", ["eth0"], "ingress", [one["name"] for one in kept])], selectionProcess=kept,
                  cache=[cache("flows", list(keys), ["out"])], exportingProcess=[exporter("out", "next")])


def mediator(name: str) -> Json:
    """Returns a mediator that totals by /16 of the source."""
    aggregation = {"name": "by source", "key": [{"ieName": "sourceIPv4Prefix", "prefixLength": 16}], "exportingProcess": ["out"]}
    return device(name, exportingProcess=[exporter("out", "next")], collectingProcess=[{"name": "in", "once-audit:aggregation": [aggregation]}])


def host(name: str) -> Json:
    return device(name, collectingProcess=[{"name": "in"}])


def link(source: str, target: str, exporting: str = "out", destination: str = "next") -> Json:
    return {"device": source, "exportingProcess": exporting, "destination": destination, "toDevice": target, "toProcess": "in"}


def network(devices: list[Json], links: list[Json]) -> Json:
    report = {"device": "billing", "collectingProcess": "in", "key": [{"ieId": 44, "prefixLength": 8}]}
    return {"devices": devices, "links": links, "report": report}


def crossing(text: str) -> Json:
    """Returns `DEVICE INTERFACE DIRECTION` as a crossing."""
    name, interface, direction = text.split()
    return {"device": name, "interface": interface, "direction": direction}


def traffic_class(name: str, region: dict[str, str], *paths: list[str], **more: object) -> Json:
    return {"name": name, "region": region, "paths": [[crossing(one) for one in path] for path in paths], **more}


def provider() -> tuple[Json, Json]:
    """Returns four routers, of which r1 and r2 send by a mediator, and r4 to an archive alone; and four classes."""
    share = [selection("low", ("sourceIPv4Prefix", "10.0.0.0/9")), selection("high", ("sourceIPv4Prefix", "10.128.0.0/9"))]
    devices = [meter("r1", *share), mediator("mediator"), meter("r2"), host("archive"), meter("r3"), host("billing"), meter("r4")]
    links = [link("r4", "archive"), link("r1", "mediator"), link("mediator", "billing"), link("r2", "mediator"), link("r3", "billing")]
    classes = [
        traffic_class("one", {"sourceIPv4Address": "10.1.0.0/16"}, ["r1 eth0 ingress", "r1 eth1 egress", "r3 eth1 ingress"]),
        traffic_class("two", {"sourceIPv4Address": "10.2.0.0/16"}, ["r3 eth0 ingress", "r1 eth1 ingress"], ["r3 eth1 ingress", "r2 eth0 ingress"]),
        traffic_class("three", {"sourceIPv4Address": "10.200.0.0/16"}, ["r1 eth0 ingress", "r1 eth2 egress"]),
        traffic_class("none", {"sourceIPv4Address": "192.0.2.0/24"}, ["r2 eth1 ingress", "r4 eth0 ingress"], exempt=[None]),
    ]
    return network(devices, links), {"classes": classes}


def write(folder: Path, network_document: object, traffic_document: object) -> tuple[Path, Path]:
    """Writes two documents; returns their paths."""
    folder.mkdir(parents=True, exist_ok=True)
    paths = folder / "network.json", folder / "traffic.json"
    for path, document in zip(paths, (network_document, traffic_document)):
        path.write_text(json.dumps(document), encoding="utf-8")
    return paths


def read(path: Path) -> Json:
    found: Json = json.loads(path.read_text(encoding="utf-8"))
    return found
