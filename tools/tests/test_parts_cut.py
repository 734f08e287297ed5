"""once-part cuts networks into the parts that are written here by hand, within the limits, and says where input is wrong."""
from __future__ import annotations

import hashlib
import json
import subprocess
import sys
from pathlib import Path
from typing import Any, Callable

import pytest
from conftest import TOP
from once_tools import part_main
from once_tools.elements import AXES
from once_tools.model import Unusable
from once_tools.once_program import run_once
from once_tools.parts import packing
from once_tools.parts.cutting import Sources, cut
from part_networks import COUNTERS, Json, crossing, device, host, link, meter, network, point, provider, read, selection, traffic_class, write

EXAMPLES = sorted(it.parent for it in (TOP / "examples").glob("*/network.json"))


def cut_of(folder: Path, documents: tuple[Json, Json], filters: bool = False) -> list[tuple[Json, Json]]:
    """Returns the parts of two documents."""
    paths = write(folder, *documents)
    parts = cut(Sources(*paths, folder / "parts", filters))
    return [(read(folder / "parts" / f"{number:04d}" / "network.json"), read(folder / "parts" / f"{number:04d}" / "traffic.json"))
            for number in range(1, len(parts) + 1)]


def names(document: Json) -> list[str]:
    return [one["name"] for one in document.get("devices", document.get("classes", []))]


def ends(document: Json) -> list[tuple[str, str]]:
    return [(one["device"], one["toDevice"]) for one in document["links"]]


def paths(document: Json) -> dict[str, list[list[str]]]:
    return {one["name"]: [[" ".join((it["device"], it["interface"], it["direction"])) for it in path] for path in one["paths"]] for one in document["classes"]}


@pytest.mark.parametrize("example", EXAMPLES, ids=lambda it: it.name)
def test_an_example_is_one_part_that_lacks_nothing(example: Path, tmp_path: Path) -> None:
    documents = read(example / "network.json"), read(example / "traffic.json")
    assert cut_of(tmp_path, documents) == [documents]


def test_parts_by_hand(tmp_path: Path, monkeypatch: pytest.MonkeyPatch) -> None:
    monkeypatch.setitem(packing.LIMITS, "devices", 4)
    whole = provider()
    first, second, third = cut_of(tmp_path, whole)
    assert names(first[0]) == ["r1", "mediator", "billing"] and ends(first[0]) == [("r1", "mediator"), ("mediator", "billing")]
    assert paths(first[1]) == {"one": [["r1 eth0 ingress", "r1 eth1 egress"]], "three": [["r1 eth0 ingress", "r1 eth2 egress"]]}
    assert names(second[0]) == ["mediator", "r2", "r3", "billing"]
    assert ends(second[0]) == [("mediator", "billing"), ("r2", "mediator"), ("r3", "billing")]
    assert paths(second[1]) == {"two": [["r3 eth0 ingress"], ["r3 eth1 ingress", "r2 eth0 ingress"]]}
    assert names(third[0]) == ["archive", "billing", "r4"] and ends(third[0]) == [("r4", "archive")]
    assert third[1] == {"classes": [{**whole[1]["classes"][3], "paths": [[crossing("r4 eth0 ingress")]]}]}
    devices = {one["name"]: one for one in whole[0]["devices"]}
    for part, _ in (first, second, third):
        assert part["devices"] == [devices[name] for name in names(part)] and part["report"] == whole[0]["report"]


def test_without_selection_processes_that_select_nothing(tmp_path: Path, monkeypatch: pytest.MonkeyPatch, once: str) -> None:
    monkeypatch.setitem(packing.LIMITS, "classes", 1)
    whole = provider()
    parts = {names(traffic)[0]: part for part, traffic in cut_of(tmp_path, whole, filters=True)}
    router = {name: part["devices"][0] for name, part in parts.items() if name in ("one", "three")}
    low, high = selection("low", ("sourceIPv4Prefix", "10.0.0.0/9")), selection("high", ("sourceIPv4Prefix", "10.128.0.0/9"))
    whole_router = meter("r1", low, high)
    for name, kept in (("one", low), ("three", high)):
        lists = whole_router["config"]["ietf-ipfix-psamp:ipfix"]
        wanted = {**lists, "selectionProcess": [kept], "observationPoint": [point("in", ["eth0"], "ingress", [kept["name"]])]}
        assert router[name] == {"name": "r1", "config": {"ietf-ipfix-psamp:ipfix": wanted}}
    assert names(parts["two"]) == ["mediator", "r2", "r3", "billing"] and parts["two"]["devices"][1] == whole[0]["devices"][2]


def filtered(*values: tuple[str, str], **region: str) -> tuple[Json, Json]:
    """Returns a router with one filter, and a class that crosses it."""
    devices = [meter("r1", selection("some", *values)), host("billing")]
    return network(devices, [link("r1", "billing")]), {"classes": [traffic_class("c", region, ["r1 eth0 ingress"])]}


@pytest.mark.parametrize(("documents", "kept"), [
    (filtered(("sourceIPv4Prefix", "10.0.0.0/8"), sourceIPv4Address="10.255.255.255"), True),
    (filtered(("sourceIPv4Prefix", "10.0.0.0/8"), sourceIPv4Address="11.0.0.0-12.0.0.0"), False),
    (filtered(("ipVersion", "4"), ipVersion="6"), False),
    (filtered(("ipVersion", "4")), True),
    (filtered(("protocolIdentifier", "6"), ("destinationTransportPort", "53"), protocolIdentifier="6-17", destinationTransportPort="54-60"), False),
    (filtered(("destinationIPv6Prefix", "2001:db8::/32"), destinationIPv6Address="2001:db8:ffff::/48"), True),
    (filtered(("protocolIdentifier", "6"), ("protocolIdentifier", "17")), False),
], ids=["last address", "beyond it", "other version", "any version", "second filter", "ipv6", "contradiction"])
def test_a_device_that_selects_nothing_is_left_out_with_filters_alone(documents: tuple[Json, Json], kept: bool, tmp_path: Path) -> None:
    [(part, traffic)] = cut_of(tmp_path / "with", documents, filters=True)
    assert names(part) == (["r1", "billing"] if kept else ["billing"])
    assert paths(traffic) == {"c": [["r1 eth0 ingress"] if kept else []]}
    assert cut_of(tmp_path / "without", documents) == [documents]


def test_once_reads_a_device_without_selection_processes(tmp_path: Path, once: str) -> None:
    documents = filtered(("ipVersion", "4"), ipVersion="4")
    other = meter("r2", selection("six", ("ipVersion", "6")))
    other["config"]["ietf-ipfix-psamp:ipfix"]["collectingProcess"] = [{"name": "in", "exportingProcess": ["out"]}]
    documents[0]["devices"].append(other)
    documents[0]["links"] = [link("r1", "r2"), link("r2", "billing")]
    [(part, traffic)] = cut_of(tmp_path, documents, filters=True)
    lists = part["devices"][2]["config"]["ietf-ipfix-psamp:ipfix"]
    assert lists["selectionProcess"] == [] and lists["observationPoint"][0]["selectionProcess"] == [] and len(lists["cache"]) == 1
    answer = run_once(once, "audit", tmp_path / "parts/0001/network.json", tmp_path / "parts/0001/traffic.json")
    assert answer.output.startswith("once-certificate")


def test_classes_that_touch_the_same_devices_share_parts_of_256(tmp_path: Path) -> None:
    documents = network([meter("r1"), meter("r2"), host("billing")], [link("r1", "billing"), link("r2", "billing")])
    classes = [traffic_class(f"{number}", {}, [f"r{1 + number % 2} eth0 ingress"]) for number in range(600)]
    parts = cut_of(tmp_path, (documents, {"classes": classes}))
    assert [(names(part), len(traffic["classes"])) for part, traffic in parts] == [
        (["r1", "billing"], 256), (["r2", "billing"], 256), (["r1", "r2", "billing"], 88)]
    assert names(parts[0][1]) == [str(number) for number in range(0, 512, 2)]


def test_classes_are_joined_where_they_add_the_fewest_devices(tmp_path: Path, monkeypatch: pytest.MonkeyPatch) -> None:
    monkeypatch.setitem(packing.LIMITS, "devices", 4)
    documents = network([*(meter(f"r{number}") for number in range(6)), host("billing")], [link(f"r{number}", "billing") for number in range(6)])
    pairs = [(0, 1), (2, 3), (4, 5), (1, 2), (0, 2), (3, 4)]
    classes = [traffic_class(f"{one}{other}", {}, [f"r{one} eth0 ingress"], [f"r{other} eth0 ingress"]) for one, other in pairs]
    parts = cut_of(tmp_path, (documents, {"classes": classes}))
    assert [names(traffic) for _, traffic in parts] == [["01", "12", "02"], ["23", "34"], ["45"]]


def test_one_part_has_all_in_its_order(tmp_path: Path) -> None:
    documents = provider()
    assert cut_of(tmp_path, documents) == [documents]


def test_all_that_records_can_reach_is_kept(tmp_path: Path) -> None:
    """r1 leads to m1 and m2, m1 to m3, and m2 to the report; r2 leads to m4, and the report's host to an archive."""
    names_of = ["m4", "m3", "r1", "m1", "billing", "m2", "archive", "r2"]
    leads = [("r2", "m4"), ("m1", "m3"), ("r1", "m2"), ("r1", "m1"), ("billing", "archive"), ("m2", "billing"), ("m4", "billing")]
    devices = [meter(one) if one[0] == "r" else host(one) for one in names_of]
    links = [link(one, other, destination=f"{number}") for number, (one, other) in enumerate(leads)]
    [(part, _)] = cut_of(tmp_path, (network(devices, links), {"classes": [traffic_class("c", {}, ["r1 eth0 ingress", "r2 eth1 ingress"])]}))
    assert names(part) == ["m3", "r1", "m1", "billing", "m2", "archive"]
    assert part["links"] == links[1:6]


@pytest.mark.parametrize(("limit", "most", "wanted"), [("links", 2, [["0", "1"], ["2", "3"]]), ("collecting processes", 4, [["0", "1", "2"], ["3"]]), ("layouts", 4, [["0", "2"], ["1", "3"]])])
def test_parts_keep_within_each_limit(limit: str, most: int, wanted: list[list[str]], tmp_path: Path, monkeypatch: pytest.MonkeyPatch) -> None:
    """Router 0 and 2 have the same two layouts, and so have 1 and 3; each has a collecting process and a link."""
    monkeypatch.setitem(packing.LIMITS, limit, most)
    devices = [meter(f"r{number}") for number in range(4)]
    for number, one in enumerate(devices):
        lists = one["config"]["ietf-ipfix-psamp:ipfix"]
        lists["collectingProcess"] = [{"name": "in"}]
        lists["cache"] += [cache_by((AXES[3 + number % 2],)), cache_by((AXES[5 + number % 2],))]
    documents = network([*devices, host("billing")], [link(f"r{number}", "billing") for number in range(4)])
    classes = [traffic_class(f"{number}", {}, [f"r{number} eth0 ingress"]) for number in range(4)]
    assert [names(traffic) for _, traffic in cut_of(tmp_path, (documents, {"classes": classes}))] == wanted


def limited(what: str) -> tuple[Json, Json, str]:
    """Returns documents whose class is beyond a limit, and what must be said."""
    path, devices, said = ["r eth0 ingress"], [host("billing")], ""
    if what == "devices":
        devices = [*(meter(f"r{number}") for number in range(64)), host("billing")]
        path, said = [f"r{number} eth0 ingress" for number in range(30)], "31 devices, 8 are allowed"
    elif what == "processes":
        devices = [device("r", observationPoint=[point("in", ["eth0"], "ingress", [])], collectingProcess=[{"name": f"{it}"} for it in range(256)]), host("billing")]
        said = "257 collecting processes, 256 are allowed"
    elif what == "links":
        devices = [meter("r"), host("billing")]
        said = "5 links, 4 are allowed"
    elif what == "layouts":
        keys = ("sourceIPv4Address", "destinationIPv4Address", "protocolIdentifier", "ipVersion")
        router = meter("r")
        router["config"]["ietf-ipfix-psamp:ipfix"]["cache"] = [cache_by(keys[:number + 1]) for number in range(4)]
        devices, said = [router, host("billing")], "5 layouts, 4 are allowed"
    elif what == "paths":
        devices, said = [meter("r"), host("billing")], "17 paths, 16 are allowed"
    else:
        devices, path, said = [meter("r"), host("billing")], ["r eth1 ingress"] * 33, "33 crossings of a path, 32 are allowed"
    links = [link(one["name"], "billing") for one in devices if one["name"] != "billing" and what != "links"]
    links += [link("r", "billing", destination=f"{number}") for number in range(5 if what == "links" else 0)]
    many = [path] * (17 if what == "paths" else 1)
    return network(devices, links), {"classes": [traffic_class("small", {}, []), traffic_class("large", {}, *many)]}, said


def cache_by(keys: tuple[str, ...]) -> Json:
    fields = [{"name": one, "ieName": one, "isFlowKey": [None]} for one in keys]
    return {"name": keys[-1], "timeoutCache": {"cacheLayout": {"cacheField": fields}}}


@pytest.mark.parametrize("what", ["devices", "processes", "links", "layouts", "paths", "crossings"])
def test_a_class_beyond_a_limit(what: str, tmp_path: Path, monkeypatch: pytest.MonkeyPatch, capsys: pytest.CaptureFixture[str]) -> None:
    for name, limit in {"devices": 8, "links": 4, "layouts": 4}.items():
        monkeypatch.setitem(packing.LIMITS, name, limit)
    *documents, said = limited(what)
    network_file, traffic_file = write(tmp_path, *documents)
    assert part_main.main(["cut", str(network_file), str(traffic_file), "--to", str(tmp_path / "parts")]) == 2
    printed = capsys.readouterr().err
    assert f"wrong {traffic_file} /classes/1: class 'large' alone exceeds a limit" in printed and f" {said}; " in printed
    assert not (tmp_path / "parts").exists()


@pytest.mark.parametrize("count", [63, 64])
def test_layouts_are_counted_as_once_counts_them(count: int, once: str, tmp_path: Path) -> None:
    """The report has a layout of its own. Fields in another order, twice, or on no axis make none; in an immediate cache all fields on axes are keys."""
    subsets = [tuple(axis for bit, axis in enumerate(AXES) if number >> bit & 1) for number in range(1, count + 1)]
    caches = [{**cache_by(keys), "name": f"{number}"} for number, keys in enumerate(subsets)]
    first = caches[4]["timeoutCache"]["cacheLayout"]["cacheField"]
    first += [{"name": "again", "ieId": 8, "isFlowKey": [None]}, {"name": "other", "ieName": "sourceTransportPort"}]
    immediate = [{key: value for key, value in field.items() if key != "isFlowKey"} for field in reversed(caches[6]["timeoutCache"]["cacheLayout"]["cacheField"])]
    immediate.append({"name": "enterprise", "ieName": "ipVersion", "ieEnterpriseNumber": 9})
    caches.append({"name": "immediate", "immediateCache": {"cacheLayout": {"cacheField": immediate}}})
    for one in caches:
        next(value for value in one.values() if isinstance(value, dict))["cacheLayout"]["cacheField"] += COUNTERS
    router = device("r", observationPoint=[point("in", ["eth0"], "ingress", [])], cache=caches)
    documents = network([router, host("billing")], []), {"classes": [traffic_class("c", {}, ["r eth0 ingress"])]}
    found = run_once(once, "lint", *write(tmp_path / "whole", *documents)).output
    if count == 63:
        assert found == "ok\n" and cut_of(tmp_path, documents) == [documents]
        return
    assert found.startswith("refused 207")
    with pytest.raises(Unusable, match="65 layouts, 64 are allowed"):
        cut_of(tmp_path, documents)


def test_the_provider_of_the_examples(tmp_path: Path, capsys: pytest.CaptureFixture[str]) -> None:
    maker = TOP / "examples/scale/make_provider.py"
    subprocess.run([sys.executable, "-B", str(maker), str(tmp_path), "--routers", "100", "--mistake"], check=True)
    words = [str(tmp_path / name) for name in ("network.json", "traffic.json")]
    assert part_main.main(["cut", *words, "--to", str(tmp_path / "parts")]) == 0
    parts = read(tmp_path / "parts/manifest.json")["parts"]
    assert [one["sizes"]["classes"] for one in parts][0] <= 256 and sum(one["sizes"]["classes"] for one in parts) == 500
    assert all(one["sizes"]["devices"] == len(one["devices"]) <= 64 and "billing-host" in one["devices"] for one in parts) and 3 <= len(parts) <= 6
    assert sum("edge-01-22" in one["devices"] for one in parts) >= 1
    capsys.readouterr()
    assert part_main.main(["verify", str(tmp_path / "parts"), *words, "--once", "/bin/true"]) == 1
    said = capsys.readouterr().out.splitlines()
    assert said == [*(f"part {one['folder']}: there is no certificate: run `once-part audit`" for one in parts), "no"]


def test_the_limits_are_those_of_once() -> None:
    assert packing.LIMITS == {"devices": 64, "collecting processes": 256, "links": 1024, "layouts": 64, "classes": 256}


def changed(change: Callable[[Any, Any], object]) -> tuple[Any, Any]:
    documents = provider()
    change(*documents)
    return documents


def ipfix(network_document: Any, number: int) -> Any:
    return network_document["devices"][number]["config"]["ietf-ipfix-psamp:ipfix"]


WRONG: dict[str, tuple[Callable[[Any, Any], object], str, str]] = {
    "no devices": (lambda n, t: n.pop("devices"), "network.json:", "has no member 'devices'"),
    "an empty list of devices": (lambda n, t: n["devices"].clear(), "network.json /report/device:", "names no device of the network: 'billing'"),
    "devices as an object": (lambda n, t: n.update(devices={}), "network.json /devices:", "is no list"),
    "a device without a name": (lambda n, t: n["devices"][1].pop("name"), "network.json /devices/1:", "has no member 'name'"),
    "two devices of a name": (lambda n, t: n["devices"][2].update(name="r1"), "network.json /devices/2:", "is a second device named 'r1'"),
    "no module": (lambda n, t: n["devices"][0].update(config={}), "network.json /devices/0/config:", "has no member 'ietf-ipfix-psamp:ipfix'"),
    "a name that is a number": (lambda n, t: ipfix(n, 0)["observationPoint"][0].update(ifName=[7]),
                                "network.json /devices/0/config/ietf-ipfix-psamp:ipfix/observationPoint/0/ifName/0:", "is no text"),
    "a link from nowhere": (lambda n, t: n["links"][0].update(device="r9"), "network.json /links/0/device:", "names no device of the network: 'r9'"),
    "a link to nowhere": (lambda n, t: n["links"][1].update(toDevice="r9"), "network.json /links/1/toDevice:", "names no device of the network: 'r9'"),
    "a report of nothing": (lambda n, t: n["report"].update(device="r9"), "network.json /report/device:", "names no device"),
    "a key without length": (lambda n, t: n["report"]["key"][0].pop("prefixLength"), "network.json /report/key/0:", "has no member 'prefixLength'"),
    "a cache of no kind": (lambda n, t: ipfix(n, 0)["cache"][0].pop("timeoutCache"),
                           "network.json /devices/0/config/ietf-ipfix-psamp:ipfix/cache/0:", "has no kind of cache"),
    "classes as a text": (lambda n, t: t.update(classes="one"), "traffic.json /classes:", "is no list"),
    "two classes of a name": (lambda n, t: t["classes"][2].update(name="one"), "traffic.json /classes/2:", "is a second class named 'one'"),
    "a crossing of no device": (lambda n, t: t["classes"][1]["paths"][0][1].update(device="r9"), "traffic.json /classes/1/paths/0/1/device:", "names no device"),
    "a direction that is none": (lambda n, t: t["classes"][1]["paths"][0][1].update(direction="in"), "traffic.json /classes/1/paths/0/1/direction:",
                                 "is no direction: 'in'"),
    "no path": (lambda n, t: t["classes"][3].update(paths=[]), "traffic.json /classes/3:", "class 'none' has no path"),
    "a region that is none": (lambda n, t: t["classes"][0]["region"].update(sourceIPv4Address="10/8"), "traffic.json /classes/0/region/sourceIPv4Address:",
                              "is no set of values"),
    "an axis that is none": (lambda n, t: t["classes"][0]["region"].update({"a/b": "1"}), "traffic.json /classes/0/region/a~1b:", "this is no axis"),
}


@pytest.mark.parametrize("name", WRONG)
def test_wrong_input_is_named_with_its_place(name: str, tmp_path: Path) -> None:
    change, place, says = WRONG[name]
    with pytest.raises(Unusable) as caught:
        cut_of(tmp_path, changed(change))
    found = caught.value.finding
    assert (found.place.file + ":").endswith("/" + place), found.place.file
    assert says in found.says and found.todo


@pytest.mark.parametrize("text", [b"", b"{", b"[]", b"\xff{}", b'{"devices": NaN}', b"[" * 100_000], ids=["nothing", "cut", "list", "latin", "nan", "deep"])
def test_texts_that_are_no_documents(text: bytes, tmp_path: Path, capsys: pytest.CaptureFixture[str]) -> None:
    paths_of = write(tmp_path, *provider())
    paths_of[0].write_bytes(text)
    assert part_main.main(["cut", *map(str, paths_of), "--to", str(tmp_path / "parts")]) == 2
    assert capsys.readouterr().err.startswith(f"wrong {paths_of[0]}: is no ")


def test_filters_that_once_does_not_read_are_refused_where_they_are_asked_for(tmp_path: Path) -> None:
    documents = filtered(("sourceIPv4Address", "10.0.0.0/8"))
    assert len(cut_of(tmp_path / "without", documents)) == 1
    with pytest.raises(Unusable) as caught:
        cut_of(tmp_path / "with", documents, filters=True)
    assert caught.value.finding.place.file.endswith("/selectionProcess/0/selector/0/filterMatch")


def test_the_manifest_and_the_same_octets_again(tmp_path: Path) -> None:
    files = write(tmp_path, *provider())
    for folder in ("a", "b"):
        assert part_main.main(["cut", *map(str, files), "--to", str(tmp_path / folder)]) == 0
    found = sorted(str(it.relative_to(tmp_path / "a")) for it in (tmp_path / "a").rglob("*.json"))
    assert found == ["0001/network.json", "0001/traffic.json", "manifest.json"]
    assert all((tmp_path / "a" / name).read_bytes() == (tmp_path / "b" / name).read_bytes() for name in found)
    assert read(tmp_path / "a" / "manifest.json") == {
        "version": 1, "sha256": {name: hashlib.sha256(file.read_bytes()).hexdigest() for name, file in zip(("network", "traffic"), files)}, "filters": False,
        "parts": [{"folder": "0001", "sizes": {"devices": 7, "collecting processes": 3, "links": 5, "layouts": 3, "classes": 4},
                   "classes": [{"name": name, "index": number} for number, name in enumerate(("one", "two", "three", "none"))],
                   "devices": ["r1", "mediator", "r2", "archive", "r3", "billing", "r4"]}]}


def test_elements_and_members_in_their_other_forms(tmp_path: Path) -> None:
    documents = provider()
    text = json.dumps(documents).replace('"ieName": "sourceIPv4Address"', '"ieId": 8').replace('"ieName": "sourceIPv4Prefix"', '"ieId": 44')
    text = text.replace('"isFlowKey": [null]', '"isFlowKey": true').replace('"exportMode": "', '"exportMode": "ietf-ipfix-psamp:').replace('"selectAll": [null]', '"selectAll": {}')
    others = json.loads(text)
    for filters in (False, True):
        written = cut_of(tmp_path / f"written {filters}", documents, filters), cut_of(tmp_path / f"others {filters}", others, filters)
        assert [(names(part), paths(traffic)) for part, traffic in written[0]] == [(names(part), paths(traffic)) for part, traffic in written[1]]
    assert read(tmp_path / "written True/parts/manifest.json")["parts"] == read(tmp_path / "others True/parts/manifest.json")["parts"]


def test_arguments_and_folders(tmp_path: Path, capsys: pytest.CaptureFixture[str]) -> None:
    files = [str(it) for it in write(tmp_path, *provider())]
    with pytest.raises(SystemExit) as caught:
        part_main.main(["cut", *files])
    assert caught.value.code == 6
    assert part_main.main(["cut", *files, "--to", str(tmp_path)]) == 5 and "is there already" in capsys.readouterr().err
    assert part_main.main(["cut", files[0], str(tmp_path / "none.json"), "--to", str(tmp_path / "a")]) == 5
    assert part_main.main(["audit", str(tmp_path / "none"), "--once", "/bin/true"]) == 5
    for words in (["--help"], ["cut", "--help"], ["audit", "--help"], ["verify", "--help"]):
        capsys.readouterr()
        with pytest.raises(SystemExit):
            part_main.main(words)
        said = " ".join(capsys.readouterr().out.split())
        assert "whether the parts certify the whole, and is proved" in said and "`verify` says in sentences" in said and "Exit statuses: 0" in said
