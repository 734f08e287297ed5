"""Projects that the lab writes for once-import, and texts of routers and the switch that it reads."""
from __future__ import annotations

import json
import socket
import tomllib
from pathlib import Path
from typing import Any, cast

import pytest

from lab import routing
from lab.agents import receive, replay, send
from lab.documents import project_lines, region_of, table
from lab.exporters import Meter, Started, pmacctd_settings
from lab.main import chosen_of
from lab.programs import LabError
from lab.rows import Seen, printed, seen_in, without_origins
from lab.scenarios import all_scenarios, place_of
from lab.schedules import class_of, is_in, schedule_of
from lab.special_paths import bridge_ports, flooded
from lab.state import State, next_interface
from lab.verdicts import Verdict

PROTOTYPE = ("a1 a2 a3 b1 b2 b3 b4 c1 c2 c3 d1 d2 d3 d4 d5 d6 d7 e1 e2 e3 f1 f2 n1 n2 n3 n4 n5 n6 n7 n8 n9 n10 n11 n12".split())


def test_all_scenarios_are_there() -> None:
    names = [one.name for one in all_scenarios()]
    assert len(names) == len(set(names)) == 43
    assert set(PROTOTYPE) <= {name.split("-")[0] for name in names}
    assert names.index("n9-smallcache") < names.index("n10-burst")


def test_the_core() -> None:
    assert [one.name.split("-")[0] for one in chosen_of([], False)] == ["a1", "b1", "c1", "c2", "d1", "d4", "e1", "f1"]
    assert len(chosen_of([], True)) == 43 and [one.name for one in chosen_of(["n12", "a1"], False)] == ["a1-one", "n12-hairpin"]


def test_each_expected_difference_has_its_premise() -> None:
    for one in all_scenarios():
        assert one.expected.verdicts == (Verdict.AGREED,) or one.expected.premise, one.name


def test_a_strange_name_is_refused() -> None:
    with pytest.raises(ValueError, match="no name of a scenario"):
        place_of("One")


def test_next_hops_of_a_kernel() -> None:
    text = json.dumps([{"dst": "10.9.0.0/24", "nexthops": [{"gateway": "10.0.12.2", "dev": "up0", "flags": []},
                                                           {"gateway": "10.0.13.2", "dev": "up1", "flags": ["dead"]}]},
                       {"dst": "10.1.0.0/24", "dev": "cust1", "flags": []}])
    assert routing.hops_in(text, "10.9.0.0/24") == 1
    assert routing.hops_in(text, "10.1.0.0/24") == 1
    assert routing.hops_in(text, "10.2.0.0/24") == 0 and routing.hops_in("", "10.2.0.0/24") == 0


def test_interfaces_that_speak_ospf() -> None:
    text = json.dumps({"interfaces": {
        "up0": {"ifUp": True, "ipAddress": "10.0.12.1", "timerMsecs": 1000},
        "cust1": {"ifUp": True, "ipAddress": "10.1.0.1", "timerPassiveIface": True},
        "up1": {"ifUp": False, "ipAddress": "10.0.13.1"}}})
    assert routing.speaking_in(text) == [{"interface": "up0", "address": "10.0.12.1"}]


def test_answer_of_a_kernel_about_a_route() -> None:
    text = "10.2.0.11 from 10.1.0.11 via 10.0.12.2 dev up0 table 100 \n    cache iif cust1 \n"
    assert next_interface(text, "edge") == "up0"
    with pytest.raises(LabError, match="names no interface"):
        next_interface("RTNETLINK answers: No route to host", "edge")


def test_regions_of_hosts() -> None:
    assert region_of(["10.9.0.11"]) == "10.9.0.11"
    assert region_of(["10.1.0.11", "10.1.0.2", "10.1.0.15"]) == "10.1.0.2-10.1.0.15"
    assert region_of(["2001:db8:1::15", "2001:db8:1::11"]) == "2001:db8:1::11-2001:db8:1::15"


def test_tables_of_a_project() -> None:
    lines = table("devices", {"name": "edge", "config": ["a.conf", "b \"c\".conf"], "exempt": False, "kind": "", "flag": True})
    assert tomllib.loads("\n".join(lines)) == {"devices": [{"name": "edge", "config": ["a.conf", 'b "c".conf'], "flag": True}]}


def saved(folder: Path) -> State:
    state = State(folder)
    for host, address in {"c1": "10.1.0.11", "c2": "10.2.0.11", "s1": "10.9.0.11", "s2": "10.9.0.12"}.items():
        state.addresses[host, 4] = [address]
    for host in ("c1", "c2", "edge", "core", "s1", "s2"):
        (folder / f"{host}.addr.json").write_text('[{"ifname": "lo"}, {"ifname": "eth0"}]', encoding="utf-8")
        (folder / f"{host}.route.json").write_text("[]", encoding="utf-8")
    return state


@pytest.mark.parametrize("name", ["a1-one", "b4-any", "d2-manual", "e1-tee", "f3-fallback", "m1-aggregate"])
def test_projects_are_toml(name: str, tmp_path: Path) -> None:
    scenario = next(one for one in all_scenarios() if one.name == name)
    started = [Started(meter, cast(Any, None), (tmp_path / f"pmacctd-{meter.device}.conf",)) for meter in scenario.meters]
    project = tomllib.loads("\n".join(project_lines(scenario, started, saved(tmp_path), tmp_path, [])))
    devices = {one["name"]: one for one in project["devices"]}
    assert list(devices) == ["c1", "c2", "edge", "core", "s1", "s2", "sw"]
    assert devices["edge"]["routes"] == ["edge.route.json"] and len(project["traffic"]) == 8
    assert project["traffic"][0] == {"name": "customer 1 to server 1", "source": "10.1.0.11", "destination": "10.9.0.11",
                                     "ingress": ["c1:lo"]}
    assert [one["name"] for one in project["collectors"]] == [one.name for one in scenario.collectors]
    if name == "b4-any":
        assert devices["edge"]["options"] == {"interfaces": "lo, eth0"}
    if name == "d2-manual":
        assert devices["sw"]["options"] == {"switches": "manual"}


def test_settings_of_pmacctd() -> None:
    lines = pmacctd_settings(Meter("edge", ("up0",), ("172.31.0.1:4741", "172.31.0.1:4739"), filter="udp", domain=3), "")
    assert "pcap_interface: up0" in lines and "pcap_filter: udp" in lines and "plugins: nfprobe[p0], nfprobe[p1]" in lines
    assert "nfprobe_engine[p0]: 30" in lines and "nfprobe_engine[p1]: 31" in lines
    assert "plugin_pipe_zmq: true" in lines and "plugin_pipe_zmq: true" not in pmacctd_settings(Meter("edge", ("any",)), "")
    assert "pcap_interfaces_map: a.map" in pmacctd_settings(Meter("edge", ("cust1", "cust2")), "a.map")


def test_settings_of_nfacctd() -> None:
    collectors = {one.name: one.collectors[-1] for one in all_scenarios()}
    lines = collectors["a1-one"].settings(Path("folder"))
    assert "nfacctd_ip: 172.31.0.1" in lines and "plugins: print" in lines and "plugin_pipe_zmq: true" in lines
    assert [name for name, one in collectors.items() if "plugin_pipe_zmq: true" not in one.settings(Path("folder"))] == ["n10-burst"]
    tee = next(one for one in all_scenarios() if one.name == "e1-tee").collectors[0].settings(Path("folder"))
    assert "plugins: tee[t]" in tee and "plugin_pipe_zmq: true" in tee


def crossing(device: str, interface: str, direction: str) -> dict[str, str]:
    return {"device": device, "interface": interface, "direction": direction}


def test_paths_over_a_hub() -> None:
    path = [crossing("core", "srv0", "egress"), crossing("sw", "p-core", "ingress"), crossing("sw", "p-s1", "egress")]
    ports = ["br0", "p-core", "p-s1", "p-s2"]
    assert [one["interface"] for one in flooded(path, ports)] == ["srv0", "p-core", "br0", "p-s1", "p-s2"]


def test_ports_of_the_bridge() -> None:
    tables = [{"caption": "Bridge table", "headings": ["name"], "data": [["br0"]]},
              {"caption": "Port table", "headings": ["_uuid", "name"], "data": [[["uuid", "1"], "p-s1"], [["uuid", "2"], "br0"]]}]
    assert bridge_ports("\n".join(map(json.dumps, tables))) == ["br0", "p-s1"]


def test_classes_of_packets() -> None:
    classes = [{"region": {"sourceIPv4Address": "10.1.0.2-10.1.0.15", "destinationIPv4Address": "10.9.0.11"}},
               {"region": {"sourceIPv4Address": "10.2.0.0/24"}}]
    assert class_of({"ip.src": "10.1.0.11", "ip.dst": "10.9.0.11"}, classes) == 1
    assert class_of({"ip.src": "10.2.0.11", "ip.dst": "10.9.0.11"}, classes) == 2
    with pytest.raises(LabError, match="no class holds"):
        class_of({"ip.src": "10.1.0.16", "ip.dst": "10.9.0.11"}, classes)
    assert is_in("10.1.0.15", "10.1.0.2-10.1.0.15") and not is_in("10.1.0.16", "10.1.0.2-10.1.0.15") and is_in("10.1.0.1", "10.1.0.1")


def test_a_schedule_needs_one_path(tmp_path: Path, monkeypatch: pytest.MonkeyPatch) -> None:
    rows = [["10.1.0.11", "10.9.0.11", "4000", "5000", "64"], ["10.1.0.11", "10.9.0.11", "4000", "5000", "1"]]
    monkeypatch.setattr("lab.captures.field_rows", lambda *_: rows)
    traffic = tmp_path / "traffic.json"
    paths = [[crossing("core", "srv0", "egress")], []]
    traffic.write_text(json.dumps({"classes": [{"region": {"sourceIPv4Address": "10.1.0.11"}, "paths": paths}]}), encoding="utf-8")
    assert schedule_of(traffic, traffic, lambda row, path: bool(path) == (int(row["ip.ttl"]) > 2)) == "next 1 1\nnext 1 2\n"
    with pytest.raises(LabError, match="took 0 paths"):
        schedule_of(traffic, traffic, lambda *_: False)


def test_packets_have_the_lengths_of_the_plan() -> None:
    one = {"source": "10.1.0.11", "destination": "10.9.0.11", "source_port": 4000, "destination_port": 5000, "payload": 100,
           "tos": 184, "ttl": 2, "may_fragment": False}
    octets = send.packet(one, 7)
    assert len(octets) == 128 and int.from_bytes(octets[2:4], "big") == 128 and octets[8] == 2 and octets[1] == 184
    assert octets[6] == 0x40 and octets[28:32] == b"\0\0\0\7"
    assert send.packet({**one, "may_fragment": True}, 7)[6] == 0
    udp = octets[20:]
    pseudo = octets[12:20] + b"\0\x11" + udp[4:6]
    assert send.checksum(pseudo + udp) == 0  # RFC 768: the sum with the checksum in it


def test_packets_of_ipv6() -> None:
    one = {"source": "2001:db8:1::11", "destination": "2001:db8:9::11", "source_port": 4000, "destination_port": 5000,
           "payload": 100, "tos": 184, "ttl": 64, "may_fragment": False}
    octets = send.packet(one, 7)
    assert len(octets) == 148 and octets[:2] == b"\x6b\x80" and int.from_bytes(octets[4:6], "big") == 108
    assert octets[8:24] == socket.inet_pton(socket.AF_INET6, "2001:db8:1::11")
    pseudo = octets[8:40] + (108).to_bytes(4, "big") + b"\0\0\0\x11"
    assert send.checksum(pseudo + octets[40:]) == 0


def test_messages_of_a_stream() -> None:
    message = b"\0\x0a\0\x12" + bytes(12) + b"ab"
    assert list(replay.messages(message * 2)) == [message, message]


def test_a_receiver_listens() -> None:
    with receive.listener("127.0.0.1", 0) as one:
        assert one.getsockname()[1] > 0


def test_what_tshark_sees_in_messages() -> None:
    text = ("    FlowSequence: 1\n    FlowSequence: 2 (expected 1)\n        Flow 1\n            SrcAddr: 10.1.0.12\n"
            "            Dropped Octets: 3\n            Octets: 353\n            Octets: 60\n            Permanent Octets: 353\n")
    assert seen_in(text) == Seen(1, 1)


def test_lines_of_a_row() -> None:
    assert printed({"10.10.0.1": (1, 40), "10.9.0.1": (2, 80)}, Seen(1, 0)) == (
        "keys 2\n10.9.0.1 packets 2 octets 80\n10.10.0.1 packets 1 octets 40\nunassigned 0\ngaps 1\nskipped 0\n")
    assert without_origins({"a": [{"once-import:origin": {}, "b": 1}]}) == {"a": [{"b": 1}]}


