"""Paths over the bridges of Open vSwitch, which no routing table names."""
from __future__ import annotations

import json
from pathlib import Path

from once_tools.importing import Imported
from projects import made

REPORT = '[report]\ncollector = "billing"\nkey = "sourceIPv4Address"\n'
COLLECTOR = '[[collectors]]\nname = "billing"\nlisten = ["192.0.2.10:4739"]\n'
ROUTER = ("plugins: nfprobe\nnfprobe_receiver: 192.0.2.10:4739\npcap_interface: eth0\npromisc: false\npcap_direction: in\n")
NONE: list[object] = ["set", []]
IPFIX = {"sampling": 1, "targets": "192.0.2.10:4739", "other_config": ["map", [["enable-output-sampling", "true"]]],
         "obs_domain_id": 1, "obs_point_id": 1, "cache_active_timeout": 0, "cache_max_flows": 0}


def database(ports: dict[str, list[str]], metered: str) -> str:
    """Returns the tables of a switch with these bridges, one of which is metered."""
    def uuid(kind: str, name: str) -> list[str]:
        return ["uuid", f"{kind}-{name}"]
    names = [name for bridge, those in ports.items() for name in [bridge, *those]]
    bridges = [[uuid("bridge", bridge), bridge, ["set", [uuid("port", name) for name in [bridge, *those]]],
                uuid("ipfix", "1") if bridge == metered else NONE, NONE, NONE] for bridge, those in ports.items()]
    tables = {
        "Bridge": (["_uuid", "name", "ports", "ipfix", "netflow", "mirrors"], bridges),
        "Port": (["_uuid", "name", "interfaces"], [[uuid("port", name), name, uuid("interface", name)] for name in names]),
        "Interface": (["_uuid", "name", "type"], [[uuid("interface", name), name, "internal" if name in ports else ""]
                                                  for name in names]),
        "IPFIX": (["_uuid", *IPFIX], [[uuid("ipfix", "1"), *IPFIX.values()]])}
    return "\n".join(json.dumps({"caption": f"{name} table", "headings": headings, "data": rows})
                     for name, (headings, rows) in tables.items())


def addresses(**interfaces: str) -> str:
    return json.dumps([{"ifname": name, "flags": ["UP"], "addr_info": [
        {"family": "inet", "local": text.partition("/")[0], "prefixlen": int(text.partition("/")[2])}]}
        for name, text in interfaces.items()])


def imported(folder: Path, pairs: str, switches: str = "br0 = p1, p2, p3", destination: str = "10.9.0.11") -> Imported:
    """Returns the outcome for a router whose subnet of servers is behind a switch, and a server."""
    ports = {text.split(" = ")[0]: text.split(" = ")[1].split(", ") for text in switches.split("; ")}
    project = (f'{REPORT}{COLLECTOR}[[devices]]\nname = "core"\nkind = "linux"\naddresses = "core.addr"\nroutes = "core.route"\n'
               f'[[devices]]\nname = "server"\nkind = "linux"\naddresses = "server.addr"\nroutes = "server.route"\n'
               f'[[devices]]\nname = "sw"\nconfig = "sw.db"\n[links]\npairs = [{pairs}]\nsubnets = false\n'
               f'[[traffic]]\nname = "up"\nsource = "10.1.0.0/24"\ndestination = "{destination}"\ningress = ["core:eth0"]\n')
    core = [{"dst": "10.9.0.0/24", "dev": "srv0", "scope": "link"}, {"dst": "10.1.0.0/24", "dev": "eth0", "scope": "link"}]
    return made(folder, project, core_addr=addresses(eth0="10.1.0.1/24", srv0="10.9.0.1/24"), core_route=json.dumps(core),
                server_addr=addresses(eth0="10.9.0.11/24"), server_route=json.dumps([{"dst": "10.9.0.0/24", "dev": "eth0"}]),
                sw_db=database(ports, "br0"))


def crossings(found: Imported) -> list[list[str]]:
    assert found.pairs, found.report.text()
    return [[f"{one.device}:{one.interface}:{one.direction.value}" for one in path] for path in found.pairs[0].classes[0].paths]


TO_SWITCH, TO_SERVER = '["core:srv0", "sw:p1"]', '["sw:p2", "server:eth0"]'


def test_a_packet_crosses_the_ports_that_lead_to_its_host(tmp_path: Path) -> None:
    assert crossings(imported(tmp_path, f"{TO_SWITCH}, {TO_SERVER}")) == [["sw:p1:ingress"]]


def test_a_host_without_a_link_may_be_behind_any_open_port(tmp_path: Path) -> None:
    found = imported(tmp_path, f"{TO_SWITCH}, {TO_SERVER}", destination="10.9.0.77")
    assert crossings(found) == [["sw:p1:ingress"]]
    assert "no link leads to their host: they are taken to leave by any of sw br0, sw p3" in found.report.text()


def test_a_frame_stays_in_its_bridge(tmp_path: Path) -> None:
    found = imported(tmp_path, f"{TO_SWITCH}, {TO_SERVER}", "br0 = p1, p3; br1 = p2")
    assert "they are taken to leave by any of sw br0, sw p3" in found.report.text()


def test_two_bridges_that_a_cable_joins(tmp_path: Path) -> None:
    found = imported(tmp_path, f'{TO_SWITCH}, ["sw:p3", "sw:q1"], ["sw:q2", "server:eth0"]', "br0 = p1, p3; br1 = q1, q2")
    assert crossings(found) == [["sw:p1:ingress"]]
    assert "no link leads to their host" not in found.report.text()
