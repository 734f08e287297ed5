"""What is folded in reports on large networks: devices in the overview, and paths that are alike."""
from __future__ import annotations

import json
import re
from pathlib import Path
from typing import Any, Sequence
from xml.etree import ElementTree

from conftest import TESTS, needed
from once_tools import import_main
from once_tools.reporting.alike import Counted, Crossing, PathRow, folded
from once_tools.reporting.names import are_numbered
from once_tools.reporting.overview import Overview, overview_of, site_of
from once_tools.reporting.picture import picture_of
from report_pages import SHARED, documents, made

TWENTY = TESTS.parent / "examples" / "twenty-devices.table"
IPFIX = "ietf-ipfix-psamp:ipfix"


def twenty(folder: Path) -> tuple[dict[str, Any], Path, Path]:
    """Returns the network of twenty devices, and the files of its documents."""
    network, traffic = folder / "network.json", folder / "traffic.json"
    assert import_main.main(["table", str(TWENTY), str(network), str(traffic)]) == 0
    return json.loads(network.read_text(encoding="utf-8")), network, traffic


def meter(name: str, value: str = "10.0.0.0/8") -> dict[str, Any]:
    """Returns a device with a point, a filter, and a destination `only`."""
    point = {"name": "in", "observationDomainId": len(name), "ifName": [f"eth-{name}"], "selectionProcess": ["chosen"]}
    selection = {"name": "chosen", "selector": [{"name": "1", "filterMatch": {"ieName": "sourceIPv4Prefix", "value": value}}], "cache": "flows"}
    process = {"name": "export", "destination": [{"name": "only", "tcpExporter": {}}]}
    return {"name": name, "config": {IPFIX: {"observationPoint": [point], "selectionProcess": [selection], "exportingProcess": [process]}}}


def network_of(devices: Sequence[dict[str, Any]], unlinked: Sequence[str] = ()) -> dict[str, Any]:
    """Returns a network in which each device exports to one collector, except those in `unlinked`."""
    collector = {"name": "collector", "config": {IPFIX: {"collectingProcess": [{"name": "billing"}]}}}
    links = [{"device": one["name"], "exportingProcess": "export", "destination": "only", "toDevice": "collector", "toProcess": "billing"}
             for one in devices if one["name"] not in unlinked]
    return {"devices": [*devices, collector], "links": links, "report": {"device": "collector", "collectingProcess": "billing", "key": []}}


def labels(overview: Overview) -> list[list[str]]:
    """Returns the lines of each box."""
    return [one.split("\\n") for one in re.findall(r'^  box\d+ \[label="((?:[^"\\]|\\.)*)"', overview.drawing, re.M)]


def arrows(overview: Overview) -> set[tuple[str, str, str]]:
    """Returns the arrows between boxes, each with the first name of its ends' boxes and how many links it is."""
    names = [lines[0] for lines in labels(overview)]
    found = re.findall(r'^  box(\d+) -> box(\d+)(?: \[label="(\d+) links"\])?;', overview.drawing, re.M)
    return {(names[int(start)], names[int(end)], links or "1") for start, end, links in found}


def test_devices_that_are_alike_are_one_box(tmp_path: Path) -> None:
    found = overview_of(twenty(tmp_path)[0], {"edge-01", "core-2"})
    assert labels(found) == [
        ["edge-01 to edge-14", "14 devices", "meters"], ["core-1, core-2", "2 devices", "meters"],
        ["mediator-1, mediator-2", "2 devices", "aggregates"], ["monitor", "collects"], ["billing-host", "holds the report"]]
    assert arrows(found) == {
        ("edge-01 to edge-14", "mediator-1, mediator-2", "28"), ("core-1, core-2", "mediator-1, mediator-2", "4"),
        ("edge-01 to edge-14", "monitor", "14"), ("mediator-1, mediator-2", "billing-host", "2")}
    assert re.findall(r"color=(\w+)\];", found.drawing) == ["blue", "blue", "black", "black", "darkgreen"]
    assert found.words.startswith("20 devices in 5 boxes: edge-01 to edge-14, 14 devices, meters; ")


def test_a_device_without_a_link_is_seen(tmp_path: Path) -> None:
    network = twenty(tmp_path)[0]
    network["links"] = [one for one in network["links"] if (one["device"], one["destination"]) != ("edge-03", "second")]
    found = overview_of(network, set())
    assert [lines[0] for lines in labels(found)][:3] == ["edge-01, edge-02 and 11 more", "edge-03", "core-1, core-2"]
    assert 'lost1 [label="1 destination\\nwithout a link"' in found.drawing and "box1 -> lost1 [color=red, style=dashed];" in found.drawing


def test_what_is_a_device_s_own_does_not_keep_it_apart() -> None:
    assert [lines[0] for lines in labels(overview_of(network_of([meter("a1"), meter("longer")]), set()))] == ["a1, longer", "collector"]
    others = network_of([meter("a1"), meter("a2", "10.1.0.0/16"), meter("a3")])
    assert [lines[0] for lines in labels(overview_of(others, set()))] == ["a1, a3", "a2", "collector"]
    assert [lines[0] for lines in labels(overview_of(others, set(), {"a3"}))] == ["a1", "a2", "a3", "collector"]


def test_what_devices_do() -> None:
    both, relay, idle = meter("both"), meter("relay"), {"name": "idle", "config": {}}
    both["config"][IPFIX]["collectingProcess"] = [{"name": "in"}]
    relay["config"] = {IPFIX: {"collectingProcess": [{"name": "in", "once-audit:aggregation": [{"name": "by source"}]}]}}
    found = labels(overview_of(network_of([both, relay, idle], ["idle"]), set()))
    assert found == [["both", "meters, collects"], ["relay", "aggregates"], ["idle"], ["collector", "holds the report"]]


def test_many_boxes_are_folded_by_site() -> None:
    devices = [meter(f"{site}-r{number}", f"10.{place}.{number}.0/24") for place, site in enumerate(("ams", "fra", "lon")) for number in range(1, 9)]
    found = overview_of(network_of(devices, ["fra-r2", "fra-r5"]), set(), {"lon-r4"})
    assert [lines[:2] for lines in labels(found)] == [
        ["ams-r1 to ams-r8", "8 devices"], ["fra-r1 to fra-r8", "8 devices"], ["lon-r1, lon-r2 and 5 more", "7 devices"], ["lon-r4", "meters"],
        ["collector", "holds the report"]]
    assert arrows(found) >= {("ams-r1 to ams-r8", "collector", "8"), ("fra-r1 to fra-r8", "collector", "6"), ("lon-r4", "collector", "1")}
    assert 'label="2 destinations\\nwithout a link"' in found.drawing


def test_twenty_boxes_are_not_folded() -> None:
    devices = [meter(f"site-{number}", f"10.0.{number}.0/24") for number in range(19)]
    assert len(labels(overview_of(network_of(devices), set()))) == 20
    assert len(labels(overview_of(network_of([*devices, meter("site-20", "10.1.0.0/24")]), set()))) == 2


def test_sites_and_numbers_in_names() -> None:
    assert [site_of(name) for name in ("ams-r1", "fra1.edge", "r17", "42", "a_b", "-x")] == ["ams", "fra", "r", "42", "a", "-x"]
    assert are_numbered(["r8", "r9", "r10"]) and are_numbered(["a-01", "a-02"])
    assert not are_numbered(["r1", "r3"]) and not are_numbered(["r1", "s2"]) and not are_numbered(["r1", "collector"])


def test_names_are_quoted() -> None:
    needed("dot")
    made_of = picture_of(overview_of(network_of([meter('a"];b\\\n')]), set()).drawing, "overview", "title")
    assert [one.text for one in ElementTree.fromstring(made_of.markup).iter("text")] == ['a"];b\\\\n', "meters", "collector", "holds the report"]


def test_only_pages_of_many_devices_have_an_overview(once: str, tmp_path: Path) -> None:
    _, *files = twenty(tmp_path)
    status, html = made(once, tmp_path, *files)
    assert status == 0
    pictures = [attributes["aria-labelledby"] for tag, attributes in html.elements if tag == "svg"]
    assert pictures == ["overview-picture-title", "network-picture-title"]
    assert not html.faults and "20 devices in 5 boxes: " in html.text() and "Show the whole network" in html.text()
    _, html = made(once, tmp_path, *documents(SHARED))
    assert "overview-picture-title" not in html.values("aria-labelledby")
    assert not [row for row in html.rows if " to " in row[0]]


def row(number: int, *devices: str, interface: str = "eth0", leaves: int = 2) -> PathRow:
    """Returns a path through these devices, which is counted at the first."""
    crossings = tuple(Crossing(device, interface, "ingress") for device in devices)
    return PathRow(str(number), crossings, (Counted(1, devices[0], interface, "ingress", "in", "all", leaves),), 1)


def shown(rows: Sequence[PathRow]) -> list[tuple[str, str, str, int, int]]:
    """Returns the numbers, crossings, place and leaves of each row."""
    return [(one.numbers, ", ".join(map(str, one.crossings)), one.counted[0].device, one.counted[0].leaves, one.uncounted) for one in folded(rows)]


def test_paths_that_are_alike_are_one_row() -> None:
    alike = [row(number, f"r{number + 7}", "core", f"s-{number + 1}") for number in range(1, 4)]
    assert shown(alike) == [("1 to 3", "r8 to r10 eth0 ingress, core eth0 ingress, s-2 to s-4 eth0 ingress", "r8 to r10", 6, 3)]
    assert [one[0] for one in shown([*alike, row(4, "r12", "core", "s-5")])] == ["1 to 3", "4"]
    assert [one[0] for one in shown([row(1, "a"), *(row(number, f"r{number}") for number in range(2, 6)), row(6, "b")])] == ["1", "2 to 5", "6"]


def test_other_paths_are_rows_of_their_own() -> None:
    assert [one[0] for one in shown([row(1, "r1"), row(2, "r2")])] == ["1", "2"]
    for last in (row(3, "r4"), row(3, "s3"), row(3, "r3", interface="eth1"), row(3, "r3", leaves=1), row(3, "r3", "r3"), row(3, "r2")):
        assert [one[0] for one in shown([row(1, "r1"), row(2, "r2"), last])] == ["1", "2", "3"]
    assert [one[0] for one in shown([row(1, "r"), row(2, "r"), row(3, "r")])] == ["1", "2", "3"]
    assert folded([]) == ()


def test_the_paths_of_twenty_devices(once: str, tmp_path: Path) -> None:
    _, *files = twenty(tmp_path)
    _, html = made(once, tmp_path, *files)
    rows = [row for row in html.rows if row[0][:1].isdigit() and len(row) == 6]
    assert rows[0] == ["1 to 14", "edge-01 to edge-14 eth0 ingress, then core-1 xe0 egress", "edge-01 to edge-14 eth0 ingress (crossing 1)", "customers",
                       "from-customers", "14"]
    assert rows[1][:2] == ["1", "core-1 xe0 ingress, then edge-07 eth0 egress"] and rows[2][0] == "2"
