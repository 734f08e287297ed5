"""Devices of the samples, compared with their network documents."""
from __future__ import annotations

from pathlib import Path

import pytest

from expected import MISTAKES, SAMPLES, expected, read, shape
from once_tools.readers import READERS

CASES = [
    ("pmacctd", ["pmacct/pmacctd.conf"], "pmacct", "gw-2"),
    ("nfacctd", ["pmacct/nfacctd.conf", "pmacct/tee_receivers.lst"], "pmacct", "billing-host"),
    ("openvswitch", ["openvswitch/hv-1.ovsdb.json"], "openvswitch", "hv-1"),
    ("junos", ["juniper-junos/mx-1.set"], "juniper-junos", "mx-1"),
    ("cisco-xr", ["cisco-ios-xr/core-1.cfg"], "cisco-ios-xr", "core-1"),
    ("vyos", ["vyos/gw-1.set"], "vyos", "gw-1"),
]


@pytest.mark.parametrize("kind,files,folder,name", CASES, ids=[one[0] for one in CASES])
def test_a_sample_is_read_as_its_document_says(kind: str, files: list[str], folder: str, name: str) -> None:
    device = read(kind, *[SAMPLES / file for file in files])
    assert shape(device) == expected(SAMPLES / folder / "network.expected.json", name)


def test_the_tracker_of_arista_is_read_beside_the_sampled_one() -> None:
    """The document leaves out the sampled tracker, which exports to nobody who bills."""
    found = shape(read("arista-eos", SAMPLES / "arista-eos/leaf-1.cfg"))
    for part, values in expected(SAMPLES / "arista-eos/network.expected.json", "leaf-1").items():
        if isinstance(values, dict):
            assert {name: one for name, one in found[part].items() if not name.startswith("sampled ")} == values
        else:
            assert [one for one in found[part] if not one[0].startswith("sampled ")] == values


def test_the_probe_of_the_topology_meters_what_comes_in_at_both_interfaces() -> None:
    device = read("pmacctd", SAMPLES / "topology/edge-1.pmacctd.conf", SAMPLES / "topology/interfaces.map")
    found, document = shape(device), expected(SAMPLES / "topology/network.expected.json", "edge-1")
    assert [one[:3] for one in found["points"]] == [one[:3] for one in document["points"]]
    assert found["exporters"] == document["exporters"]
    for part in ("selections", "caches"):
        assert found[part] == document[part]


def test_overlapping_filters_are_read_as_their_document_says() -> None:
    folder = MISTAKES / "05-overlapping-filters"
    device = read("pmacctd", folder / "pmacctd.conf", options={"interfaces": "eth0"})
    assert shape(device) == expected(folder / "network.expected.json", "gw-2")


def test_formal_and_indented_texts_of_a_router_give_equal_devices() -> None:
    formal = shape(read("cisco-xr", SAMPLES / "cisco-ios-xr/core-1.formal.cfg"))
    indented = shape(read("cisco-xr", SAMPLES / "cisco-ios-xr/core-1.cfg"))
    assert formal["points"] == [one for one in indented["points"] if one[0] == "V4 ingress"]
    assert formal["selections"]["V4"] == indented["selections"]["V4"]
    assert formal["exporters"]["BILLING"] == indented["exporters"]["BILLING"]


def test_braces_and_set_lines_of_a_router_give_equal_points() -> None:
    curly = shape(read("junos", SAMPLES / "juniper-junos/mx-1.curly"))
    assert curly["points"] == [("BILL inet input", ["xe-0/0/0.0"], "ingress", ["BILL inet"])]
    assert curly["exporters"] == {"BILL inet": ("parallel", [("192.0.2.10 port 4739", "192.0.2.10", 4739)])}


OWN = {"pmacctd": "pmacct/pmacctd.conf", "softflowd": "pmacct/softflowd.service", "nfacctd": "pmacct/nfacctd.conf",
       "nfcapd": "pmacct/nfcapd.args", "openvswitch": "openvswitch/hv-1.ovsdb.json", "junos": "juniper-junos/mx-1.set",
       "cisco-xr": "cisco-ios-xr/core-1.cfg", "vyos": "vyos/gw-1.set", "arista-eos": "arista-eos/leaf-1.cfg"}


@pytest.mark.parametrize("kind", OWN)
def test_each_sample_is_detected_as_its_kind(kind: str) -> None:
    text = (SAMPLES / OWN[kind]).read_text()
    found = {name: reader.detect(text) for name, reader in READERS.items()}
    assert found[kind] > 50
    assert all(value <= found[kind] - 20 for name, value in found.items() if name != kind), found


@pytest.mark.parametrize("kind", OWN)
def test_places_cite_lines_of_the_files(kind: str) -> None:
    path: Path = SAMPLES / OWN[kind]
    paths = [path, SAMPLES / "pmacct/tee_receivers.lst"] if kind == "nfacctd" else [path]
    texts = {one.name: one.read_text().splitlines() for one in paths}
    device = read(kind, *paths)
    for one in device.findings:
        assert one.place.file in texts
        assert one.place.line == 0 or texts[one.place.file][one.place.line - 1].strip() == one.place.text
