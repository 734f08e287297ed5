"""once-mend proposes the change that a person would choose, and what it proposes is certified; each patch is applied by another library."""
from __future__ import annotations

import json
import time
from pathlib import Path
from typing import Any, Callable

import pytest
from conftest import TESTS, TOP, module, needed
from once_tools import mend_main
from once_tools.mending.metering import remainder
from once_tools.mending.patches import add, patched, remove, replace
from once_tools.mending.search import Limits, mend
from once_tools.once_program import run_once

# What a person would do, by the folder below tests/mistakes, in the order in which it is done: where `network.mended.json` differs.
MENDS = {
    "01-input-and-output": ['Remove observation point "BILL4 output" of edge-1'],
    "02-both-ends-of-a-link": ['Take interface HundredGigE0/0/0/3 off observation point "V4 ingress" of core-1',
                               'Take interface HundredGigE0/0/0/1 off observation point "V4 ingress" of edge-1'],
    "03-sampler-left-on": ['Take selector "ONE-IN-100" out of selection process "BILL4" of edge-1'],
    "04-decommissioned-collector": ['Link destination "192.0.2.99 port 9996" of exporting process "TO-BILLING" of edge-1 to collecting process "udp 4739" '
                                    "of billing-host"],
    "05-overlapping-filters": ['Leave 10.1.0.0/16 out of selection process "all IPv4 1" of gw-2'],
    "06-port-and-vlan": ['Take interface GigabitEthernet1/0/1 off observation point "BILL4 input" of sw-1'],
    "07-vrf-leak": ['Take interface vasiright1 off observation point "BILL4 input" of edge-1'],
    "08-tunnel-inside-and-outside": ['Remove observation point "BILL4 input" of pe-1'],
    "09-fallback-that-nobody-bills": ['Have collecting process "sctp 4739" of standby-host forward its records to "udp 4739" of billing-host'],
    "10-ipv6-not-metered": ["Meter IPv6 packets that come in at interface GigabitEthernet0/0/0 of edge-1"],
    "11-egress-on-some-interfaces": ['Add interface Bundle-Ether2 to observation point "V4 egress" of core-1'],
    "12-mediator-without-the-key": ['Add sourceIPv4Prefix/24 to the key of aggregation "destination-prefix" of cpe-7'],
}
# Where the mended document has the same names, so that it is what the proposal gives.
SAME = ("02-both-ends-of-a-link", "03-sampler-left-on", "06-port-and-vlan", "07-vrf-leak", "11-egress-on-some-interfaces")
EXAMPLES = {
    "one-path-metered-twice": ['Remove observation point "core side" of edge-router'],
    "fallback-that-nobody-collects": ['Link destination "old billing" of exporting process "to billing" of edge-router to collecting process "billing" '
                                      "of billing-host"],
}
LIMITS = Limits(changes=3, proposals=3, seconds=60)


def value_of(path: Path) -> dict[str, Any]:
    found: dict[str, Any] = json.loads(path.read_text(encoding="utf-8"))
    return found


def is_mend(sentences: list[str], wanted: list[str]) -> bool:
    """Returns whether a proposal's sentences begin as these do, in whatever order."""
    return len(sentences) == len(wanted) and all(any(one.startswith(it) for one in sentences) for it in wanted)


def test_each_mistake_has_a_mend() -> None:
    assert sorted(MENDS) == sorted(it.name for it in (TESTS / "mistakes").iterdir())


@pytest.mark.parametrize("name", MENDS)
def test_a_person_s_mend_is_among_the_first_three(name: str, once: str) -> None:
    folder = TESTS / "mistakes" / name
    found = mend(once, value_of(folder / "network.expected.json"), value_of(folder / "traffic.expected.json"), LIMITS)
    mends = [one for one in found if is_mend([it.says for it in one.changes], MENDS[name])]
    assert len(mends) == 1, [[it.says for it in one.changes] for one in found]
    if name in SAME:
        assert mends[0].network == value_of(folder / "network.mended.json")


@pytest.mark.parametrize("name", EXAMPLES)
def test_examples(name: str, once: str) -> None:
    folder = TOP / "examples" / name
    found = mend(once, value_of(folder / "network.json"), value_of(folder / "traffic.json"), LIMITS)
    assert any(is_mend([it.says for it in one.changes], EXAMPLES[name]) for one in found)


@pytest.mark.parametrize("folder", [*(TESTS / "mistakes" / name for name in MENDS), *(TOP / "examples" / name for name in EXAMPLES)], ids=lambda it: it.name)
def test_another_library_applies_the_patches_to_what_is_certified(folder: Path, once: str, tmp_path: Path) -> None:
    jsonpatch = module("jsonpatch")
    ending = ".expected.json" if (folder / "network.expected.json").exists() else ".json"
    words = [str(folder / f"network{ending}"), str(folder / f"traffic{ending}"), "--once", once, "--out", str(tmp_path), "--seconds", "60"]
    assert mend_main.main(words) == 0
    patches = sorted(tmp_path.glob("*.network.patch.json"))
    assert patches
    for patch in patches:
        number = patch.name.partition(".")[0]
        for document in ("network", "traffic"):
            operations = json.loads((tmp_path / f"{number}.{document}.patch.json").read_text(encoding="utf-8"))
            made = jsonpatch.JsonPatch(operations).apply(value_of(folder / f"{document}{ending}"))
            assert made == value_of(tmp_path / f"{number}.{document}.json")
        assert run_once(once, "audit", tmp_path / f"{number}.network.json", tmp_path / f"{number}.traffic.json").output.startswith("once-certificate")


def edge(number: int) -> dict[str, Any]:
    """Returns a router that meters what comes in from its customers and exports it to the billing host."""
    fields = [{"name": "source", "ieName": "sourceIPv4Address", "isFlowKey": [None]}, *({"name": it, "ieName": it} for it in ("octetDeltaCount", "packetDeltaCount"))]
    return {"name": f"edge-{number}", "config": {"ietf-ipfix-psamp:ipfix": {
        "observationPoint": [{"name": "customers", "observationDomainId": number, "ifName": ["eth0"], "direction": "ingress", "selectionProcess": ["all"]}],
        "selectionProcess": [{"name": "all", "selector": [{"name": "all", "selectAll": [None]}], "cache": "by source"}],
        "cache": [{"name": "by source", "timeoutCache": {"cacheLayout": {"cacheField": fields}}, "exportingProcess": ["to billing"]}],
        "exportingProcess": [{"name": "to billing", "destination": [{"name": "billing", "udpExporter": {}}]}]}}}


def provider(routers: int) -> tuple[dict[str, Any], dict[str, Any]]:
    """Returns a network of edge routers and a billing host, and a class for each router's customers."""
    host = {"name": "billing-host", "config": {"ietf-ipfix-psamp:ipfix": {"collectingProcess": [{"name": "billing"}]}}}
    links = [{"device": f"edge-{it}", "exportingProcess": "to billing", "destination": "billing", "toDevice": "billing-host", "toProcess": "billing"}
             for it in range(1, routers + 1)]
    network = {"devices": [*(edge(it) for it in range(1, routers + 1)), host], "links": links,
               "report": {"device": "billing-host", "collectingProcess": "billing", "key": [{"ieName": "sourceIPv4Address"}]}}
    classes = [{"name": f"customers {it}", "region": {"sourceIPv4Address": f"10.{it}.0.0/16"},
                "paths": [[{"device": f"edge-{it}", "interface": "eth0", "direction": "ingress"},
                           {"device": f"edge-{it % routers + 1}", "interface": "eth1", "direction": "egress"}]]} for it in range(1, routers + 1)]
    return network, {"classes": classes}


def test_three_mistakes_in_a_network_of_twenty_devices(once: str) -> None:
    network, traffic = provider(19)
    del network["links"][6]
    for number, interfaces in ((2, ["eth7"]), (11, ["eth0", "eth1"])):
        point = network["devices"][number]["config"]["ietf-ipfix-psamp:ipfix"]["observationPoint"][0]
        point["ifName"] = interfaces
        if number == 11:
            point["direction"] = "both"
    wanted = ['Link destination "billing" of exporting process "to billing" of edge-7 to collecting process "billing" of billing-host',
              'Add interface eth0 to observation point "customers" of edge-3',
              'Have observation point "customers" of edge-12 meter ingress packets alone']
    began = time.monotonic()
    found = mend(once, network, traffic, Limits(changes=3, proposals=3, seconds=60))
    assert any(is_mend([it.says for it in one.changes], wanted) for one in found), [[it.says for it in one.changes] for one in found]
    assert time.monotonic() - began < 60


def ipfix(network: dict[str, Any], device: int) -> dict[str, Any]:
    found: dict[str, Any] = network["devices"][device]["config"]["ietf-ipfix-psamp:ipfix"]
    return found


def with_filter_of_another_router(network: dict[str, Any], traffic: dict[str, Any]) -> None:
    """Two routers select their own customers' sources; the second has the filter of the first."""
    for device in (0, 1):
        ipfix(network, device)["selectionProcess"][0]["selector"] = [
            {"name": "own", "filterMatch": {"ieName": "sourceIPv4Prefix", "value": "10.1.0.0/16"}}]


def with_management(network: dict[str, Any], traffic: dict[str, Any]) -> None:
    """Management traffic, which is exempt, comes in where the first router's customers do."""
    traffic["classes"].append({"name": "management", "region": {"sourceIPv4Address": "192.0.2.0/24"}, "exempt": [None],
                               "paths": [[{"device": "edge-1", "interface": "eth0", "direction": "ingress"}]]})


def with_short_counters(network: dict[str, Any], traffic: dict[str, Any]) -> None:
    for field in ipfix(network, 0)["cache"][0]["timeoutCache"]["cacheLayout"]["cacheField"][1:]:
        field["ieLength"] = 4


def with_a_mediator(network: dict[str, Any], aggregations: list[dict[str, Any]]) -> None:
    """The routers' records go to a mediator, which aggregates them by these keys."""
    entries = [{"name": name, "key": key, "exportingProcess": ["to billing"]} for name, key in ((it["name"], it["key"]) for it in aggregations)]
    config = {"collectingProcess": [{"name": "routers", "once-audit:aggregation": entries}],
              "exportingProcess": [{"name": "to billing", "destination": [{"name": "billing", "udpExporter": {}}]}]}
    network["devices"].append({"name": "mediator", "config": {"ietf-ipfix-psamp:ipfix": config}})
    for link in network["links"]:
        link.update(toDevice="mediator", toProcess="routers")
    network["links"].append({"device": "mediator", "exportingProcess": "to billing", "destination": "billing", "toDevice": "billing-host", "toProcess": "billing"})
    network["report"]["key"] = [{"ieName": "sourceIPv4Prefix", "prefixLength": 24}]


def with_a_coarser_mediator(network: dict[str, Any], traffic: dict[str, Any]) -> None:
    with_a_mediator(network, [{"name": "by network", "key": [{"ieName": "sourceIPv4Prefix", "prefixLength": 16}]}])


def with_two_aggregations(network: dict[str, Any], traffic: dict[str, Any]) -> None:
    key = [{"ieName": "sourceIPv4Prefix", "prefixLength": 24}]
    with_a_mediator(network, [{"name": "by network", "key": key}, {"name": "again", "key": key}])


@pytest.mark.parametrize("change, wanted", [
    (with_filter_of_another_router, 'Have selection process "all" of edge-2 select 10.2.0.0/16'),
    (with_management, 'Have selection process "all" of edge-1 select sourceIPv4Prefix 10.1.0.0/16 alone'),
    (with_short_counters, "Have edge-1 export counters of 8 octets"),
    (with_a_coarser_mediator, 'Set sourceIPv4Prefix/24 in the key of aggregation "by network" of mediator'),
    (with_two_aggregations, 'Remove aggregation "again" of mediator'),
])
def test_other_mistakes(change: Callable[[dict[str, Any], dict[str, Any]], None], wanted: str, once: str) -> None:
    network, traffic = provider(2)
    change(network, traffic)
    found = mend(once, network, traffic, LIMITS)
    assert found and is_mend([it.says for it in found[0].changes], [wanted]), [[it.says for it in one.changes] for one in found]


def test_a_network_that_is_certified_needs_no_mend(once: str, capsys: pytest.CaptureFixture[str]) -> None:
    folder = TOP / "examples" / "one-meter-one-collector"
    assert mend_main.main([str(folder / "network.json"), str(folder / "traffic.json"), "--once", once]) == 0
    assert capsys.readouterr().out == "nothing to mend: each packet is counted exactly as declared\n"


def test_documents_that_once_refuses_end_with_status_5(once: str, tmp_path: Path, capsys: pytest.CaptureFixture[str]) -> None:
    for name in ("network.json", "traffic.json"):
        (tmp_path / name).write_text("{}", encoding="utf-8")
    assert mend_main.main([str(tmp_path / "network.json"), str(tmp_path / "traffic.json"), "--once", once]) == 5
    assert "refused 103" in capsys.readouterr().err


@pytest.mark.parametrize("text, says", [("[]", "is no document"), ("{", "is no JSON text")])
def test_a_file_without_a_document_ends_with_status_5(text: str, says: str, once: str, tmp_path: Path, capsys: pytest.CaptureFixture[str]) -> None:
    (tmp_path / "network.json").write_text(text, encoding="utf-8")
    assert mend_main.main([str(tmp_path / "network.json"), str(tmp_path / "absent.json"), "--once", once]) == 5
    assert says in capsys.readouterr().err


def test_lines_of_configurations_are_named(once: str, tmp_path: Path, capsys: pytest.CaptureFixture[str]) -> None:
    project = TESTS / "mistakes" / "01-input-and-output" / "project.toml"
    from once_tools import import_main

    assert import_main.main([str(project), "--out", str(tmp_path)]) == 0
    capsys.readouterr()
    assert mend_main.main([str(tmp_path / "network.json"), str(tmp_path / "traffic.json"), "--once", once]) == 0
    assert "edge-1.cfg:4: ip flow monitor BILL4 output" in capsys.readouterr().out


def test_proposals_as_json(once: str, capsys: pytest.CaptureFixture[str]) -> None:
    folder = TOP / "examples" / "one-path-metered-twice"
    assert mend_main.main([str(folder / "network.json"), str(folder / "traffic.json"), "--once", once, "--format", "json"]) == 0
    found = json.loads(capsys.readouterr().out)
    at = "/devices/0/config/ietf-ipfix-psamp:ipfix/observationPoint/1"
    assert not found["certified"] and found["proposals"][0]["network"] == [{"op": "remove", "path": at}]


def test_operations() -> None:
    document: dict[str, object] = {"a/b": [1, 2], "c": {"d": 3}}
    made = patched(document, (add("/a~1b/-", 4), remove("/a~1b/0"), replace("/c/d", 5), add("/c/e", 6), replace("/a~1b/0", 7)))
    assert made == {"a/b": [7, 4], "c": {"d": 5, "e": 6}} and document == {"a/b": [1, 2], "c": {"d": 3}}


def test_remainder() -> None:
    assert remainder("10.0.0.0/8", "10.128.0.0/9") == ["10.0.0.0/9"]
    assert remainder("2001:db8::/32", "2001:db8::/33") == ["2001:db8:8000::/33"]
    assert remainder("10.0.0.0/8", "10.0.0.0/8") == [] and remainder("10.0.0.0/8", "11.0.0.0/8") == []


def test_the_script_runs() -> None:
    ran = run_once(needed("python3"), str(TOP / "tools" / "once-mend"), "--help")
    assert ran.status == 0 and "proposals" in ran.output
