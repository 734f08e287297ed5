"""Paths of samples/topology: by routing tables, links and addresses."""
from __future__ import annotations

import json
from pathlib import Path
from typing import Any

import pytest

from once_tools.model import Device, Direction, Finding, Grade, Place, Point, TrafficClass
from once_tools.paths import Declaration, cut_to_metered, declare, limit_findings
from once_tools.project import parse_project, read_project
from once_tools.source import Source

TOPOLOGY = Path(__file__).parent / "samples" / "topology"


def devices_of(document: dict[str, Any]) -> list[Device]:
    """Returns devices with the observation points of a network document, without interfaces."""
    found = []
    for entry in document["devices"]:
        points = [Point(one["name"], one["ifName"], Direction(one.get("direction", "both")), [], Place(""))
                  for one in entry["config"]["ietf-ipfix-psamp:ipfix"].get("observationPoint", [])]
        found.append(Device(entry["name"], "", [], points=points))
    return found


def as_json(classes: list[TrafficClass]) -> list[dict[str, Any]]:
    return [{"name": one.name, "region": one.region, **({"exempt": [None]} if one.exempt else {}),
             "paths": [[{"device": each.device, "interface": each.interface, "direction": each.direction.value}
                        for each in path] for path in one.paths]} for one in classes]


def load(name: str) -> Any:
    return json.loads((TOPOLOGY / name).read_text())


def declared(edit: tuple[str, str] = ("", "")) -> Declaration:
    text = (TOPOLOGY / "project.toml").read_text().replace(*edit)
    return declare(devices_of(load("network.expected.json")), parse_project(Source("project.toml", text), TOPOLOGY))


def says(findings: list[Finding]) -> list[str]:
    return [f"{one.grade.value}: {one.says}" for one in findings]


def test_traffic_of_the_sample() -> None:
    declaration = declare(devices_of(load("network.expected.json")), read_project(TOPOLOGY / "project.toml"))
    assert as_json(declaration.classes) == load("traffic.expected.json")["classes"]
    assert says(declaration.findings) == [
        "premise: 'B up' names no ingress: packets from 10.2.0.0/16 are taken to come in where routes to them lead out: "
        "edge-1:eth1",
        "note: border-1 drops packets to 10.3.0.0/16: it has no route for them, or one that discards",
        "note: packets that the routers themselves send and receive are in no class"]


@pytest.mark.parametrize("network", ["document", "devices"])
def test_metered_crossings_only(network: str) -> None:
    document = load("network.expected.json")
    declaration = cut_to_metered(declared(), document if network == "document" else devices_of(document))
    assert as_json(declaration.classes) == load("traffic.metered-crossings-only.json")["classes"]


def test_with_a_core_link_metered() -> None:
    expected = load("metered-between/traffic.expected.json")["classes"]
    assert as_json(declared().classes) == expected
    cut = cut_to_metered(declared(), load("metered-between/network.expected.json"))
    up = next(one for one in cut.classes if one.name == "A up")
    assert sorted(len(path) for path in up.paths) == [1, 2]  # one of the two equal routes passes border-1 eth0


@pytest.mark.parametrize("edit", [
    ('table = "links.csv"', "subnets = true"),
    ('table = "links.csv"', 'lldp = "lldp.edge-1.json"'),
])
def test_links_from_subnets_and_neighbours(edit: tuple[str, str]) -> None:
    assert as_json(declared(edit).classes) == load("traffic.expected.json")["classes"]


def test_way_back_has_its_own_tables() -> None:
    declaration = declared(('ingress = ["edge-1:eth0"]', 'ingress = ["edge-1:eth0"]\nboth_ways = true'))
    back = next(one for one in declaration.classes if one.name == "A up back")
    assert back.region == {"sourceIPv4Address": "198.51.100.0/24", "destinationIPv4Address": "10.1.0.0/16", "ipVersion": "4"}
    assert [[one.device for one in path] for path in back.paths] == [
        ["border-1", "border-1", "core-1", "core-1", "edge-1", "edge-1"]]  # up by both cores, down by one


def test_may_drop_adds_beginnings() -> None:
    declaration = declared(("[links]", "[paths]\nmay_drop = true\n[links]"))
    up = next(one for one in declaration.classes if one.name == "A up")
    assert sorted(len(path) for path in up.paths) == [1, 2, 2, 3, 3, 4, 4, 5, 5, 6, 6]
    cut = cut_to_metered(declaration, load("network.expected.json"))
    assert as_json(cut.classes) == load("traffic.metered-crossings-only.json")["classes"]


def test_merged_paths() -> None:
    declaration = declared(('ingress = ["border-1:eth2"]', 'ingress = ["border-1:eth2"]\nmerge = "paths"'))
    down = [one for one in declaration.classes if one.name.startswith("down")]
    assert [one.region["destinationIPv4Address"] for one in down] == ["10.0.0.0/14"] and len(down[0].paths) == 5


def test_control_packets_are_exempt() -> None:
    declaration = declared(("[links]", "[paths]\ncontrol = true\n[links]"))
    control = {one.name: one for one in declaration.classes if one.name.startswith("control")}
    out = control["control of edge-1 eth2 out"]
    assert out.exempt and out.region == {"sourceIPv4Address": "172.31.0.1", "ipVersion": "4"}
    assert [[(one.device, one.interface) for one in path] for path in out.paths] == [[("edge-1", "eth2"), ("core-1", "eth0")]]
    assert "control of border-1 eth2 in" in control and "control of edge-1 eth2 in" not in control


def test_limits_of_documents() -> None:
    classes = declared().classes
    assert not limit_findings(classes, Place("project.toml"))
    assert [one.grade for one in limit_findings(classes * 40, Place("project.toml"))] == [Grade.WRONG]
