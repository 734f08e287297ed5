"""once-part verify says yes of what cut and audit make, and names what is wrong with parts that are damaged here, by hand."""
from __future__ import annotations

import copy
import importlib
import json
import random
import shlex
import shutil
import sys
from pathlib import Path
from typing import Any, Callable

import pytest
from conftest import TOP
from once_tools import part_main
from once_tools.once_program import run_once
from once_tools.parts import packing
from once_tools.parts.cutting import Sources, cut
from once_tools.parts.judging import Judge, judged
from once_tools.parts.loading import Value
from once_tools.parts.meaning import NetworkMeaning
from once_tools.parts.manifest import read_manifest
from once_tools.parts.verifying import Verdict, verify
from part_networks import Json, crossing, exporter, host, link, mediator, meter, network, provider, read, selection, traffic_class, write

# Random networks by their seeds: the first ones, most of which are refuted, and some with more devices or classes that are certified.
SEEDS = [*range(25), 30, 37, 55, 60, 61, 67, 92, 113, 117, 143, 145, 156, 159, 162, 171, 172, 174, 186, 192, 225, 227, 239, 249, 264, 399]


def certified_provider(once: str, folder: Path) -> Path:
    """Writes the whole of `provider`, and its parts with their certificates, into a folder."""
    files = [str(it) for it in write(folder, *provider())]
    with pytest.MonkeyPatch.context() as patch:
        patch.setitem(packing.LIMITS, "devices", 4)
        assert part_main.main(["cut", *files, "--to", str(folder / "parts")]) == 0
    assert part_main.main(["audit", str(folder / "parts"), "--once", once]) == 0
    return folder


@pytest.fixture(scope="module")
def parts(once: str, tmp_path_factory: pytest.TempPathFactory) -> Path:
    return certified_provider(once, tmp_path_factory.mktemp("parts"))


def verified(once: str, folder: Path) -> Verdict:
    return verify(once, folder / "parts", folder / "network.json", folder / "traffic.json", 1)


def test_parts_with_certificates(parts: Path, once: str, capsys: pytest.CaptureFixture[str]) -> None:
    words = ["verify", *(str(parts / name) for name in ("parts", "network.json", "traffic.json")), "--once", once, "--jobs", "2"]
    assert part_main.main(words) == 0
    assert capsys.readouterr().out == "yes: 3 parts, each with a certificate, cover all paths of 4 classes\n"


def lists(document: Json, number: int) -> Any:
    return document["devices"][number]["config"]["ietf-ipfix-psamp:ipfix"]


def drop(document: Json, name: str) -> None:
    """Takes a device with its links out of a network."""
    document["devices"] = [one for one in document["devices"] if one["name"] != name]
    document["links"] = [one for one in document["links"] if name not in (one["device"], one["toDevice"])]


# What is done to part 0001 (r1, mediator, billing; classes one and three) or another one, and what must be said.
Damage = Callable[[Json, Json], object]
DAMAGES: dict[str, tuple[str, Damage, str]] = {
    "a mediator left out": ("0001", lambda n, t: drop(n, "mediator"),
                            "class 'one', path 1: part 0001: device 'r1', observation point 'in', selection process 'low': a destination leads to no collecting process, in the "
                            "whole to collecting process 'in' of device 'mediator'"),
    "a link left out": ("0001", lambda n, t: n["links"].pop(1),
                        "part 0001: collecting process 'in' of device 'mediator': a destination leads to no collecting process, in the whole to collecting process 'in' of "
                        "device 'billing'"),
    "a link that leads elsewhere": ("0001", lambda n, t: n["links"][0].update(toDevice="billing"),
                                    "class 'three', path 1: part 0001: device 'r1', observation point 'in', selection process 'high': a destination leads to collecting process 'in' "
                                    "of device 'billing', in the whole to collecting process 'in' of device 'mediator'"),
    "a filter changed": ("0001", lambda n, t: lists(n, 0)["selectionProcess"][0]["selector"][0]["filterMatch"].update(value="10.0.0.0/8"),
                         "class 'one', path 1: part 0001: device 'r1', observation point 'in', selection process 'low': the filters are others than in the whole"),
    "a filter that takes nothing any more": ("0001", lambda n, t: lists(n, 0)["selectionProcess"][0]["selector"][0]["filterMatch"].update(value="11.0.0.0/9"),
                                             "class 'one', path 1: part 0001: device 'r1', observation point 'in', selection process 'low' meters it in the whole, and not in the "
                                             "part"),
    "a selection process left out": ("0001", lambda n, t: (lists(n, 0)["selectionProcess"].pop(1), lists(n, 0)["observationPoint"][0]["selectionProcess"].pop(1)),
                                     "class 'three', path 1: part 0001: device 'r1', observation point 'in', selection process 'high' meters it in the whole, and not in the part"),
    "a cache of other keys": ("0001", lambda n, t: lists(n, 0)["cache"][0]["timeoutCache"]["cacheLayout"]["cacheField"].pop(1),
                              "class 'one', path 1: part 0001: device 'r1', observation point 'in', selection process 'low': its cache has other flow keys than in the whole"),
    "a cache without its first key": ("0001", lambda n, t: lists(n, 0)["cache"][0]["timeoutCache"]["cacheLayout"]["cacheField"].pop(0),
                                      "class 'one', path 1: part 0001: device 'r1', observation point 'in', selection process 'low': its cache has other flow keys than in the "
                                      "whole"),
    "a cache that sends nothing": ("0001", lambda n, t: lists(n, 0)["cache"][0].update(exportingProcess=[]),
                                   "class 'one', path 1: part 0001: device 'r1', observation point 'in', selection process 'low': there is another number of exporting processes "
                                   "than in the whole"),
    "an exporting process that chooses": ("0001", lambda n, t: lists(n, 0)["exportingProcess"][0].update(exportMode="fallback"),
                                          "class 'one', path 1: part 0001: device 'r1', observation point 'in', selection process 'low': an exporting process has another mode or "
                                          "number of destinations than in the whole"),
    "an aggregation of another key": ("0001", lambda n, t: lists(n, 1)["collectingProcess"][0]["once-audit:aggregation"][0]["key"][0].update(prefixLength=24),
                                      "part 0001: collecting process 'in' of device 'mediator': its aggregations have another key, matches or number than in the whole"),
    "an aggregation with a match": ("0001", lambda n, t: lists(n, 1)["collectingProcess"][0]["once-audit:aggregation"][0].update(
        match=[{"ieName": "sourceIPv4Prefix", "value": "0.0.0.0/1"}]),
        "part 0001: collecting process 'in' of device 'mediator': its aggregations have another key, matches or number than in the whole"),
    "a process that the whole lacks": ("0001", lambda n, t: lists(n, 1)["collectingProcess"].append({"name": "more"}),
                                       "part 0001: the whole has no collecting process 'more' of device 'mediator'"),
    "another report": ("0001", lambda n, t: n["report"].update(device="mediator"),
                       "part 0001: the report is of collecting process 'in' of device 'mediator', in the whole of collecting process 'in' of device 'billing'"),
    "a report of another key": ("0001", lambda n, t: n["report"]["key"][0].update(prefixLength=9), "part 0001: the report has another key than in the whole"),
    "a class left out": ("0001", lambda n, t: t["classes"].pop(0), "class 'one', path 1: no part has it"),
    "a class that the whole lacks": ("0001", lambda n, t: t["classes"][0].update(name="uno"), "part 0001: the whole has no class 'uno'"),
    "another region": ("0001", lambda n, t: t["classes"][0]["region"].update(sourceIPv4Address="10.1.0.0/17"),
                       "class 'one', path 1: part 0001: it has another region there"),
    "a region that is restricted": ("0001", lambda n, t: t["classes"][0]["region"].update(ipVersion="4"), "class 'one', path 1: part 0001: it has another region there"),
    "exempt dropped": ("0003", lambda n, t: t["classes"][0].pop("exempt"), "class 'none', path 1: part 0003: it is not exempt there, and in the whole it is"),
    "exempt added": ("0002", lambda n, t: t["classes"][0].update(exempt=True), "class 'two', path 2: part 0002: it is exempt there, and not in the whole"),
    "a path without a metered crossing": ("0002", lambda n, t: t["classes"][0]["paths"][1].pop(1),
                                          "class 'two', path 2: part 0002: device 'r2', observation point 'in', selection process 'all' meters it in the whole, and not in the part"),
    "a path left out": ("0002", lambda n, t: t["classes"][0]["paths"].pop(0),
                        "class 'two', path 1: part 0002: device 'r3', observation point 'in', selection process 'all' meters it in the whole; the part has device 'r2', observation "
                        "point 'in', selection process 'all' there"),
    "all paths left out": ("0002", lambda n, t: t["classes"][0]["paths"].clear(), "class 'two', path 1: part 0002: it has no path there"),
    "a crossing twice": ("0001", lambda n, t: t["classes"][1]["paths"][0].append(crossing("r1 eth0 ingress")),
                         "class 'three', path 1: part 0001: device 'r1', observation point 'in', selection process 'high' meters it in the part, and not in the whole"),
    "a metered device left out with its crossing": ("0002", lambda n, t: (drop(n, "r2"), t["classes"][0]["paths"][1].pop()),
                                                    "class 'two', path 2: part 0002: device 'r2', observation point 'in', selection process 'all' meters it in the whole, and not "
                                                    "in the part"),
}


@pytest.mark.parametrize("name", DAMAGES)
def test_a_damaged_part_is_named(name: str, parts: Path, once: str, tmp_path: Path) -> None:
    number, damage, said = DAMAGES[name]
    shutil.copytree(parts, tmp_path, dirs_exist_ok=True)
    folder = tmp_path / "parts" / number
    documents = read(folder / "network.json"), read(folder / "traffic.json")
    damage(*documents)
    write(folder, *documents)
    # `once` may have certified or refuted the damaged part: the judge does not depend on it.
    assert said in verified("/bin/true", tmp_path).faults


def test_a_damaged_part_that_once_certifies(parts: Path, once: str, tmp_path: Path, capsys: pytest.CaptureFixture[str]) -> None:
    shutil.copytree(parts, tmp_path, dirs_exist_ok=True)
    whole = provider()
    whole[0]["links"].append(link("r2", "billing", destination="more"))
    lists(whole[0], 2)["exportingProcess"][0]["destination"].append({"name": "more", "udpExporter": {}})
    files = [str(it) for it in write(tmp_path, *whole)]
    assert run_once(once, "audit", *files).status == 1
    assert part_main.main(["verify", str(tmp_path / "parts"), *files, "--once", once]) == 1
    printed = capsys.readouterr()
    assert printed.out.splitlines() == ["class 'two', path 2: part 0002: device 'r2', observation point 'in', selection process 'all': an exporting process has another mode or number "
                                        "of destinations than in the whole", "no"]
    assert printed.err.startswith(f"note: {files[0]} has changed since it was cut")


@pytest.mark.parametrize(("change", "said"), [
    (lambda n, t: n["links"].append(link("billing", "mediator")), "wrong {network} /links/5: comes from no destination"),
    (lambda n, t: n["links"].append(dict(n["links"][0])), "wrong {network} /links/5: is a second link of one destination"),
    (lambda n, t: n["links"][0].update(toProcess="out"), "wrong {network} /links/0: leads to no collecting process: 'out' of device 'archive'"),
    (lambda n, t: lists(n, 0)["selectionProcess"][0].update(cache="none"), "wrong {network} /devices/0: has no cache 'none'"),
    (lambda n, t: lists(n, 0)["selectionProcess"][0].update(selector=[{"name": "s", "sampCountBased": {}}]),
     "wrong {network} /devices/0/config/ietf-ipfix-psamp:ipfix/selectionProcess/0/selector/0: neither selects all packets nor filters them"),
    (lambda n, t: t["classes"].append(t["classes"][0]), "wrong {traffic} /classes/4: is a second entry named 'one'"),
    (lambda n, t: t["classes"][0]["paths"][0][0].update(device="r9"), "wrong {traffic} /classes/0/paths/0/0/device: names no device of the network: 'r9'"),
    (lambda n, t: n["report"].update(collectingProcess="out"), "wrong {network} /report: names no collecting process: 'out' of device 'billing'"),
    (lambda n, t: (lists(n, 3)["collectingProcess"][0].update(exportingProcess=["out"]), lists(n, 3).update(exportingProcess=[exporter("out", "next")]),
                   n["links"].append(link("archive", "archive"))), "wrong {network} /links: lead in a circle, to which collecting process 'in' of device 'archive' belongs"),
], ids=["link from nowhere", "link twice", "link to nowhere", "no cache", "sampling", "class twice", "no device", "no report", "circle"])
def test_a_whole_that_is_no_network(change: Damage, said: str, parts: Path, tmp_path: Path, capsys: pytest.CaptureFixture[str]) -> None:
    whole = provider()
    change(*whole)
    files = [str(it) for it in write(tmp_path, *whole)]
    assert part_main.main(["verify", str(parts / "parts"), *files, "--once", "/bin/true"]) == 2
    assert capsys.readouterr().err.startswith(said.format(network=files[0], traffic=files[1]))


def test_certificates(parts: Path, once: str, tmp_path: Path) -> None:
    shutil.copytree(parts, tmp_path, dirs_exist_ok=True)
    first, second, third = (tmp_path / "parts" / f"000{number}" / "certificate.txt" for number in (1, 2, 3))
    second.write_bytes(first.read_bytes())
    third.unlink()
    found = verified(once, tmp_path).faults
    assert len(found) == 2 and found[0].startswith("part 0002: `once check` answers no 4")
    assert found[1] == "part 0003: there is no certificate: run `once-part audit`"


def test_parts_and_manifest_that_are_gone(parts: Path, tmp_path: Path, capsys: pytest.CaptureFixture[str]) -> None:
    shutil.copytree(parts, tmp_path, dirs_exist_ok=True)
    manifest = read(tmp_path / "parts/manifest.json")
    for entries in (manifest["parts"][1:], [{**manifest["parts"][0], "folder": "../0001"}]):
        (tmp_path / "parts/manifest.json").write_text(json.dumps({**manifest, "parts": entries}), encoding="utf-8")
        words = ["verify", *(str(tmp_path / name) for name in ("parts", "network.json", "traffic.json")), "--once", "/bin/true"]
        assert part_main.main(words) == (1 if len(entries) == 2 else 2)
    printed = capsys.readouterr()
    assert "class 'one', path 1: no part has it" in printed.out and "/parts/0/folder: is no folder of a part: '../0001'" in printed.err
    (tmp_path / "parts/manifest.json").write_text(json.dumps(manifest), encoding="utf-8")
    (tmp_path / "parts/0002/network.json").unlink()
    assert any(it.startswith("part 0002: wrong ") and "cannot be read" in it for it in verified("/bin/true", tmp_path).faults)


def test_what_may_differ(parts: Path, once: str, tmp_path: Path) -> None:
    """Paths over several parts, classes in several parts, other spellings, and crossings that nothing sees."""
    shutil.copytree(parts, tmp_path, dirs_exist_ok=True)
    folder = tmp_path / "parts/0002"
    network, traffic = read(folder / "network.json"), read(folder / "traffic.json")
    other = copy.deepcopy(traffic)
    traffic["classes"][0]["paths"].pop(0)
    other["classes"][0]["paths"].pop(1)
    other["classes"][0]["paths"].append([crossing("r3 eth1 ingress"), crossing("r3 eth0 ingress"), crossing("billing any egress")])
    other["classes"][0]["region"] = {"sourceIPv4Address": "10.2.0.0-10.2.255.255", "ipVersion": "0-255"}
    write(folder, network, traffic)
    write(tmp_path / "parts/0004", json.loads(json.dumps(network).replace('"ieName": "sourceIPv4Address"', '"ieId": 8')), other)
    manifest = read(tmp_path / "parts/manifest.json")
    manifest["parts"].append({**manifest["parts"][1], "folder": "0004"})
    (tmp_path / "parts/manifest.json").write_text(json.dumps(manifest), encoding="utf-8")
    assert part_main.main(["audit", str(tmp_path / "parts"), "--once", once]) == 0
    assert verified(once, tmp_path).faults == []


def generated(seed: int) -> tuple[Json, Json]:
    """Returns the documents of a random network, by the generator of tests/generated_networks.py."""
    sys.path.append(str(TOP / "tests"))
    try:
        made: tuple[Json, Json] = next(importlib.import_module("generated_networks").generated(random.Random(seed), 1))[1]
        return made
    finally:
        sys.path.remove(str(TOP / "tests"))


def test_parts_of_random_networks(once: str, tmp_path: Path, monkeypatch: pytest.MonkeyPatch) -> None:
    """Where the whole has a certificate, each part has one and `verify` says yes; where it is refuted, so is a part."""
    monkeypatch.setitem(packing.LIMITS, "classes", 1)
    statuses, several = [], 0
    for number, seed in enumerate(SEEDS):
        documents, folder = generated(seed), tmp_path / str(seed)
        files = write(folder, *documents)
        found = cut(Sources(*files, folder / "parts", number % 2 == 1))
        statuses.append(run_once(once, "audit", *files).status)
        assert part_main.main(["audit", str(folder / "parts"), "--once", once]) == statuses[-1], documents
        faults = verify(once, folder / "parts", *files, 1).faults
        assert all(it.endswith("it is refuted: see refutation.txt") for it in faults) and bool(faults) == (statuses[-1] == 1), documents
        several += len(found) > 1
    assert statuses.count(0) >= 20 and statuses.count(1) >= 20 and several >= 20


def test_a_refuted_part_names_class_and_device(once: str, tmp_path: Path, capsys: pytest.CaptureFixture[str]) -> None:
    whole = provider()
    lists(whole[0], 2)["observationPoint"][0]["direction"] = "both"
    whole[1]["classes"].append(traffic_class("five", {}, ["r2 eth0 ingress", "r2 eth0 egress"]))
    files = [str(it) for it in write(tmp_path, *whole)]
    assert part_main.main(["cut", *files, "--to", str(tmp_path / "parts")]) == 0
    (tmp_path / "parts/0001/certificate.txt").write_text("of an earlier audit", encoding="utf-8")
    capsys.readouterr()
    assert part_main.main(["audit", str(tmp_path / "parts"), "--once", once, "--jobs", "2"]) == 1
    first, verdict, advice, others, last = capsys.readouterr().out.splitlines()
    assert first == "part 0001: 5 classes, 7 devices: refuted" and last == "1 part: 1 refuted"
    assert verdict == '  a packet of class 5 "five" on path 1 is counted 2 times instead of once'
    assert advice.startswith("  what to do: ") and "r2" in advice
    assert others.endswith(': "one", "two", "three", "none", "five"')
    part = read_manifest(tmp_path / "parts").parts[0]
    assert run_once(once, "confirm", part.network, part.traffic, part.refutation).output.startswith("refuted\n") and not part.certificate.exists()


def test_a_refused_part_names_the_device(once: str, tmp_path: Path, capsys: pytest.CaptureFixture[str]) -> None:
    whole = provider()
    lists(whole[0], 4)["cache"][0]["timeoutCache"]["cacheLayout"]["cacheField"].pop()
    files = [str(it) for it in write(tmp_path, *whole)]
    assert part_main.main(["cut", *files, "--to", str(tmp_path / "parts")]) == 0
    assert part_main.main(["audit", str(tmp_path / "parts"), "--once", once]) == 2
    printed = capsys.readouterr().out
    assert "  refused 114 /devices/4/config/" in printed and '(devices "r3")' in printed and "  what to do: " in printed


def faults(whole: tuple[Json, Json], part: tuple[Json, Json]) -> list[str]:
    """Returns what the judge says of one part."""
    meant = judged("whole", *(Value(one, "whole") for one in whole))
    judge = Judge(meant)
    return [*judge.faults_of(judged("1", *(Value(one, "part") for one in part), meant.network)), *judge.faults_of_classes()]


@pytest.mark.parametrize(("filters", "region", "is_compared"), [
    ([("sourceIPv4Prefix", "10.0.0.0/8")], {"sourceIPv4Address": "10.255.255.255-11.0.0.0"}, True),
    ([("sourceIPv4Prefix", "10.0.0.0/8")], {"sourceIPv4Address": "9.0.0.0-10.0.0.0"}, True),
    ([("sourceIPv4Prefix", "10.0.0.0/8")], {"sourceIPv4Address": "11.0.0.0-12.0.0.0"}, False),
    ([("sourceIPv4Prefix", "10.0.0.0/8")], {"sourceIPv4Address": "9.0.0.0/8"}, False),
    ([("sourceIPv4Prefix", "10.0.0.0/8")], {"sourceIPv6Address": "::1"}, True),
    ([("sourceIPv4Prefix", "10.0.0.0/8"), ("protocolIdentifier", "6")], {"sourceIPv4Address": "10.0.0.0/8", "protocolIdentifier": "7-17"}, False),
    ([("protocolIdentifier", "6"), ("protocolIdentifier", "7")], {}, False),
    ([("sourceIPv4Prefix", "10.0.0.0/9"), ("sourceIPv4Prefix", "10.0.0.0/8")], {"sourceIPv4Address": "10.128.0.0/9"}, False),
    ([("sourceIPv6Prefix", "2001:db8::/32")], {"sourceIPv6Address": "2001:db8:ffff:ffff::-2001:dba::"}, True),
    ([], {"sourceIPv6Address": "2001:db8::"}, True),
], ids=["last", "first", "beyond", "before", "other axis", "second filter", "contradiction", "narrower", "ipv6", "all"])
def test_selection_processes_that_select_nothing_are_not_compared(filters: list[tuple[str, str]], region: dict[str, str], is_compared: bool) -> None:
    traffic = {"classes": [traffic_class("c", region, ["r1 eth0 ingress"])]}
    more = [selection("more", *filters), selection("other")]
    whole = network([meter("r1", *more), host("billing")], [link("r1", "billing")])
    part = network([meter("r1", more[1]), host("billing")], [link("r1", "billing")])
    assert bool(faults((whole, traffic), (part, traffic))) == is_compared == bool(faults((part, traffic), (whole, traffic)))


# All fields that are axes are keys, though none is marked: here the keys of the other caches and a protocol.
IMMEDIATE = {"immediateCache": {"cacheLayout": {"cacheField": [{"name": it, "ieName": it} for it in (
    "sourceIPv4Address", "destinationIPv4Address", "protocolIdentifier", "octetDeltaCount", "packetDeltaCount")]}}}


def changed(change: Callable[[Json], object]) -> Json:
    """Returns the network of `provider`, changed."""
    found = provider()[0]
    change(found)
    return found


@pytest.mark.parametrize("change", [
    lambda n: lists(n, 1)["collectingProcess"][0]["once-audit:aggregation"][0].update(key=[]),
    lambda n: lists(n, 1)["collectingProcess"][0]["once-audit:aggregation"].append({"name": "more"}),
    lambda n: lists(n, 1)["collectingProcess"][0]["once-audit:aggregation"][0].update(exportingProcess=[]),
    lambda n: lists(n, 1)["collectingProcess"][0].update(exportingProcess=["out"]),
    lambda n: lists(n, 1)["exportingProcess"][0].update(exportMode="loadBalancing"),
    lambda n: lists(n, 0)["observationPoint"][0].update(direction="both", ifName=["eth0", "eth1"]),
    lambda n: lists(n, 0)["observationPoint"].append({**lists(n, 0)["observationPoint"][0], "name": "again"}),
    lambda n: lists(n, 0)["cache"][0].update(exportingProcess=[]),
    lambda n: lists(n, 0)["cache"].__setitem__(0, {**IMMEDIATE, "name": "flows", "exportingProcess": ["out"]}),
    lambda n: lists(n, 0)["selectionProcess"][0].pop("cache"),
], ids=["key", "aggregation", "aggregation sends", "forwards", "mode", "observes more", "observes twice", "sends nothing", "other cache", "no cache"])
def test_each_difference_between_networks_is_seen_from_both_sides(change: Callable[[Json], object]) -> None:
    whole, other = provider(), (changed(change), provider()[1])
    assert faults(whole, whole) == [] and faults(other, other) == []
    assert faults(whole, other) and faults(other, whole)


def test_what_makes_no_difference() -> None:
    """Names of what is inside devices, settings of caches, the order of filters, and what no class touches."""
    whole, other = provider(), provider()
    text = json.dumps(other[0]).replace('"low"', '"lower"').replace('"flows"', '"stored"').replace('"name": "out"', '"name": "away"').replace('["out"]', '["away"]')
    other[0].update(json.loads(text.replace('"exportingProcess": "out"', '"exportingProcess": "away"')))
    lists(other[0], 0)["cache"][0]["timeoutCache"]["activeTimeout"] = 60
    lists(other[0], 2)["cache"][0] = {"name": "stored", "immediateCache": {"cacheLayout": {"cacheField": [
        {"name": it, "ieName": it} for it in ("octetDeltaCount", "destinationIPv4Address", "sourceIPv4Address")]}}, "exportingProcess": ["away"]}
    lists(other[0], 6)["observationPoint"].append({"name": "other", "observationDomainId": 2, "ifName": ["eth7"], "selectionProcess": ["all"]})
    assert faults(whole, (other[0], whole[1])) == []


def prints(answer: str, status: int, output: str) -> str:
    """Returns the words of a shell that answer as `once` does."""
    members = {"format": "once-answer/1", "command": "", "answer": answer, "status": status, "output": output, "files": {}}
    return f"printf '%s\\n' {shlex.quote(json.dumps(members))}; exit {status}"


CERTIFICATE, REFUTATION = prints("certificate", 0, "once-certificate 1\nend\n"), prints("refutation", 1, "once-refutation 2\n")


@pytest.mark.parametrize(("script", "status", "said"), [
    (f"[ $1 = audit ] && {{ {CERTIFICATE}; }}; {prints('no', 1, 'no 401 line 1')}", 5,
     "wrong part 0001: `once check` does not accept the certificate of `once audit`: `once check` answers no 401 line 1; report this fault of `once`"),
    ("echo out of memory >&2; exit 4", 5, "wrong part 0001: `once audit` answered: out of memory; "),
    (f"[ $1 = audit ] && {{ {REFUTATION}; }}; {prints('no', 1, 'no 505')}", 5, "wrong part 0001: `once confirm` answered: no 505; "),
    (prints("unknown", 3, "unknown 601"), 3, ""),
    (prints("device", 5, "device 901"), 5, "wrong part 0001: `once audit` answered: device 901; "),
    ("echo nothing; exit 2", 5, "wrong part 0001: `once audit` answered: nothing; "),
    ("echo \"error: unexpected argument '--format' found\"; exit 6", 5, "wrong part 0001: `once` does not have the option --format json; use once 1.0.0 or later"),
], ids=["certificate", "memory", "refutation", "unknown", "device", "refusal", "older"])
def test_answers_that_once_should_not_give(script: str, status: int, said: str, parts: Path, tmp_path: Path, capsys: pytest.CaptureFixture[str]) -> None:
    shutil.copytree(parts, tmp_path, dirs_exist_ok=True)
    program = tmp_path / "once"
    program.write_text(f"#!/bin/sh\n{script}\n", encoding="utf-8")
    program.chmod(0o755)
    assert part_main.main(["audit", str(tmp_path / "parts"), "--once", str(program)]) == status
    printed = capsys.readouterr()
    assert printed.err.startswith(said)
    assert status != 3 or printed.out.endswith("part 0003: 1 class, 3 devices: undecided\n  unknown 601\n3 parts: 3 undecided\n")


def test_records_that_come_together_twice_go_in_no_circle() -> None:
    devices = [meter("r1"), *(mediator(f"m{number}") for number in range(6)), host("billing")]
    for one in (1, 4):
        lists({"devices": devices}, one)["exportingProcess"][0] = exporter("out", "next", "more")
    pairs = [("r1", "m0"), ("m0", "m1"), ("m1", "m3"), ("m2", "m3"), ("m3", "m4"), ("m4", "billing"), ("m5", "billing")]
    links = [link(*pair) for pair in pairs] + [link("m0", "m2", destination="more"), link("m3", "m5", destination="more")]
    NetworkMeaning(Value(network(devices, links), "whole")).check_order()


def test_the_judge_shares_the_loading_alone() -> None:
    folder = TOP / "tools/once_tools/parts"
    for name in ("judging.py", "meaning.py"):
        imported = [line for line in (folder / name).read_text(encoding="utf-8").splitlines() if line.startswith("from once_tools")]
        assert all(line.split()[1].rpartition(".")[2] in ("loading", "meaning") for line in imported), imported


def test_a_mediator_that_nothing_reaches_may_be_left_out(parts: Path, tmp_path: Path) -> None:
    whole = provider()
    whole[0]["devices"].append(mediator("spare"))
    files = write(tmp_path, *whole)
    assert not [it for it in verify("/bin/true", parts / "parts", *files, 1).faults if "certificate" not in it and "once check" not in it]
