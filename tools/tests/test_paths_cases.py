"""Paths in small networks, drawn by hand."""
from __future__ import annotations

import ipaddress
import json
from dataclasses import replace
from pathlib import Path
from typing import Any

import pytest

from once_tools.model import Device, Direction, Finding, Grade, Interface, Place, Point
from once_tools.paths import Declaration, cut_to_metered, declare
from once_tools.paths.routes import Tables, read_routes
from once_tools.paths.spellings import Spellings
from once_tools.project import parse_project
from once_tools.source import Source

HEAD = '[report]\ncollector = "billing"\nkey = "source"\n[[collectors]]\nname = "billing"\nlisten = "192.0.2.10:4739"\n'


def device(name: str, *interfaces: str, metered: tuple[str, ...] = ()) -> Device:
    """Returns a device; an interface is `NAME [ADDRESS/LENGTH ..] [vrf=NAME] [members=A+B]`."""
    found = []
    for text in interfaces:
        words = text.split()
        one = Interface(words[0], Place(name + ".cfg"))
        for word in words[1:]:
            key, _, value = word.partition("=")
            if key == "vrf":
                one.vrf = value
            elif key == "members":
                one.members = value.split("+")
            else:
                one.addresses.append(word)
        found.append(one)
    points = [Point(text, [text.split(":")[0]], Direction(text.split(":")[1]), [], Place("")) for text in metered]
    return Device(name, "ios-xe", [], interfaces=found, points=points)


def declared(folder: Path, devices: list[Device], rest: str, **members: str) -> Declaration:
    """Returns the declaration of devices; members are lines of their [[devices]] tables."""
    text = HEAD + "".join(f'[[devices]]\nname = "{one.name}"\n{members.get(one.name.replace("-", "_"), "")}\n'
                          for one in devices) + rest
    project = parse_project(Source("project.toml", text), folder)
    assert not project.findings, project.findings
    return declare(devices, project)


def ways(declaration: Declaration, at: int = 0) -> list[str]:
    return [" ".join(f"{one.device}:{one.interface}:{one.direction.value[:2]}" for one in path)
            for path in declaration.classes[at].paths]


def wrongs(declaration: Declaration) -> list[str]:
    return [one.says for one in declaration.findings if one.grade is Grade.WRONG]


def grades(findings: list[Finding], words: str) -> list[str]:
    return [one.grade.value for one in findings if words in one.says]


EDGE = device("edge-1", "GigabitEthernet0/0/0 10.1.0.1/16", "GigabitEthernet0/0/1 10.2.0.1/16",
              "TenGigabitEthernet0/1/0 172.31.0.1/31")
TRAFFIC = '[[traffic]]\nname = "up"\nsource = "10.0.0.0/8"\n'


def test_roles_on_one_device(tmp_path: Path) -> None:
    roles = '[roles]\ncustomers = ["edge-1:Gi0/0/*"]\n'
    declaration = declared(tmp_path, [EDGE], roles + TRAFFIC + 'from = ["customers"]\nto = ["edge-1:Te0/1/0", "customers"]\n')
    assert ways(declaration) == [
        "edge-1:GigabitEthernet0/0/0:in edge-1:GigabitEthernet0/0/1:eg",
        "edge-1:GigabitEthernet0/0/0:in edge-1:TenGigabitEthernet0/1/0:eg",
        "edge-1:GigabitEthernet0/0/1:in edge-1:GigabitEthernet0/0/0:eg",
        "edge-1:GigabitEthernet0/0/1:in edge-1:TenGigabitEthernet0/1/0:eg"]
    assert declaration.classes[0].region == {"sourceIPv4Address": "10.0.0.0/8", "ipVersion": "4"}


def test_roles_over_several_devices_are_all_simple_paths(tmp_path: Path) -> None:
    square = [device("a", "lan 10.0.0.1/24", "x 172.31.0.0/31", "y 172.31.0.2/31"),
              device("b", "x 172.31.0.1/31", "z 172.31.0.4/31"), device("c", "y 172.31.0.3/31", "z 172.31.0.6/31"),
              device("d", "b 172.31.0.5/31", "c 172.31.0.7/31", "up 203.0.113.1/24")]
    declaration = declared(tmp_path, square, TRAFFIC + 'from = ["a:lan"]\nto = ["d:up"]\n')
    assert ways(declaration) == ["a:lan:in a:x:eg b:x:in b:z:eg d:b:in d:up:eg", "a:lan:in a:y:eg c:y:in c:z:eg d:c:in d:up:eg"]
    none = declared(tmp_path, square, TRAFFIC + 'from = ["a:lan"]\nto = ["d:up"]\nhops = 2\n')
    assert "has no path" in wrongs(none)[0]


def test_an_end_that_leads_to_another_device_is_a_premise(tmp_path: Path) -> None:
    pair = [device("a", "lan 10.0.0.1/24", "x 172.31.0.0/31"), device("b", "x 172.31.0.1/31")]
    declaration = declared(tmp_path, pair, TRAFFIC + 'from = ["a:lan"]\nto = ["a:x"]\n')
    assert ways(declaration) == ["a:lan:in a:x:eg"]
    assert grades(declaration.findings, "which leads to b x") == ["premise"]


def test_more_than_16_paths_are_several_classes(tmp_path: Path) -> None:
    many = device("a", "lan 10.0.0.1/24", *(f"up{number} 203.0.{number}.1/24" for number in range(17)))
    declaration = declared(tmp_path, [many], TRAFFIC + 'from = ["a:lan"]\nto = ["a:up*"]\n')
    assert [(one.name, len(one.paths)) for one in declaration.classes] == [("up 1", 16), ("up 2", 1)]
    assert declaration.classes[0].region == declaration.classes[1].region


def test_vrf_leak_by_a_pair_of_interfaces(tmp_path: Path) -> None:
    leak = device("edge-1", "GigabitEthernet0/0/0 10.1.0.1/16 vrf=CUST-A", "vasileft1 192.168.1.1/30 vrf=CUST-A",
                  "vasiright1 192.168.1.2/30 vrf=INTERNET", "TenGigabitEthernet0/1/0 172.31.0.1/31 vrf=INTERNET")
    declaration = declared(tmp_path, [leak], TRAFFIC + 'from = ["edge-1:Gi0/0/0"]\nto = ["edge-1:Te0/1/0"]\n')
    assert ways(declaration) == ["edge-1:GigabitEthernet0/0/0:in edge-1:vasileft1:eg edge-1:vasiright1:in "
                                 "edge-1:TenGigabitEthernet0/1/0:eg"]


def test_vrfs_without_a_pair_are_a_premise(tmp_path: Path) -> None:
    leak = device("a", "in 10.1.0.1/16 vrf=A", "out 172.31.0.1/31 vrf=B")
    declaration = declared(tmp_path, [leak], TRAFFIC + 'from = ["a:in"]\nto = ["a:out"]\n')
    assert ways(declaration) == ["a:in:in a:out:eg"] and grades(declaration.findings, "different VRFs") == ["premise"]


def test_an_interface_that_only_a_leak_joins_has_paths_beside_those_that_have_some(tmp_path: Path) -> None:
    leak = device("a", "in 10.1.0.1/16", "vpn 10.2.0.1/16 vrf=A", "out 172.31.0.1/31")
    declaration = declared(tmp_path, [leak], TRAFFIC + 'from = ["a:in", "a:vpn"]\nto = ["a:out"]\n')
    assert ways(declaration) == ["a:in:in a:out:eg", "a:vpn:in a:out:eg"]
    assert grades(declaration.findings, "different VRFs (a vpn)") == ["premise"]


def test_an_interface_without_a_path_is_reported(tmp_path: Path) -> None:
    apart = [device("a", "in 10.1.0.1/16", "out 172.31.0.1/31"), device("b", "in 10.2.0.1/16")]
    declaration = declared(tmp_path, apart, TRAFFIC + 'from = ["a:in", "b:in"]\nto = ["a:out"]\n')
    assert grades(declaration.findings, "names b in, and no path") == ["not carried over"]


@pytest.mark.parametrize("hops, expected", [(2, ["premise"]), (3, [])])
def test_paths_that_are_too_long_are_a_premise(tmp_path: Path, hops: int, expected: list[str]) -> None:
    row = [device("a", "in 10.1.0.1/16", "ab 10.9.0.1/31", "out 10.8.0.1/31"), device("b", "ba 10.9.0.0/31", "bc 10.9.0.2/31"),
           device("c", "cb 10.9.0.3/31", "out 10.7.0.1/31")]
    declaration = declared(tmp_path, row, TRAFFIC + f'from = ["a:in"]\nto = ["a:out", "c:out"]\nhops = {hops}\n')
    assert grades(declaration.findings, f"over more than {hops} devices") == expected


def test_an_empty_role_is_wrong(tmp_path: Path) -> None:
    declaration = declared(tmp_path, [device("a", "in 10.1.0.1/16", "out 172.31.0.1/31")],
                           '[roles]\ncustomers = []\n' + TRAFFIC + 'from = ["customers"]\nto = ["a:out"]\n')
    assert wrongs(declaration) == ["role 'customers' names no interface"]


@pytest.mark.parametrize("vrf", ["vrf=CUSTOMER", ""])
def test_a_router_of_a_customer_is_joined_to_a_vrf(tmp_path: Path, vrf: str) -> None:
    """Names of VRFs are local to a router: the customer's router has none."""
    both = [device("ce", "lan 10.1.0.1/16", "wan 10.9.0.1/30"), device("pe", f"in 10.9.0.2/30 {vrf}", f"out 172.31.0.1/31 {vrf}")]
    declaration = declared(tmp_path, both, TRAFFIC + 'from = ["ce:lan"]\nto = ["pe:out"]\n')
    assert ways(declaration) == ["ce:lan:in ce:wan:eg pe:in:in pe:out:eg"]


def test_vrfs_of_one_name_are_joined_first(tmp_path: Path) -> None:
    three = [device("a", "lan 10.1.0.1/16 vrf=A", "wan 10.9.0.1/29 vrf=A"), device("b", "in 10.9.0.2/29 vrf=A", "out 172.31.0.1/31 vrf=A"),
             device("c", "in 10.9.0.3/29 vrf=C", "out 172.31.0.3/31 vrf=C")]
    declaration = declared(tmp_path, three, TRAFFIC + 'from = ["a:lan"]\nto = ["b:out"]\n')
    assert ways(declaration) == ["a:lan:in a:wan:eg b:in:in b:out:eg"]


def test_two_devices_in_one_large_subnet_are_a_premise(tmp_path: Path) -> None:
    both = [device("a", "in 10.1.0.1/16", "out 172.16.0.1/24"), device("b", "in 172.16.0.2/24", "out 172.31.0.1/31")]
    declaration = declared(tmp_path, both, TRAFFIC + 'from = ["a:in"]\nto = ["a:out"]\n')
    assert grades(declaration.findings, "a out, b in are in one subnet, 172.16.0.0/24") == ["premise"]


def test_a_probe_sees_packets_of_a_vlan_at_the_main_interface_too(tmp_path: Path) -> None:
    probe = device("gw", "eth0", "eth0.100 10.1.0.1/16", "eth1 172.31.0.1/31", metered=("eth0:ingress", "eth0.100:ingress"))
    probe.kind = "pmacctd"
    declaration = declared(tmp_path, [probe], TRAFFIC + 'from = ["gw:eth0.100"]\nto = ["gw:eth1"]\n')
    assert ways(declaration) == ["gw:eth0:in gw:eth0.100:in gw:eth1:eg"]


@pytest.mark.parametrize("metered, expected", [
    (("Gi1/0/1:ingress", "Vlan100:ingress"), ["sw:Gi1/0/1:in sw:Vlan100:in sw:Te1:eg", "sw:Gi1/0/2:in sw:Vlan100:in sw:Te1:eg"]),
    (("Vlan100:ingress",), ["sw:Vlan100:in sw:Te1:eg"]),
])
def test_a_vlan_is_crossed_with_its_metered_ports(tmp_path: Path, metered: tuple[str, ...], expected: list[str]) -> None:
    switch = device("sw", "Gi1/0/1", "Gi1/0/2", "Vlan100 10.1.0.1/16 members=Gi1/0/1+Gi1/0/2", "Te1 172.31.0.1/31",
                    metered=metered)
    assert ways(declared(tmp_path, [switch], TRAFFIC + 'from = ["sw:Vlan100"]\nto = ["sw:Te1"]\n')) == expected


def test_a_port_is_crossed_with_its_metered_vlan(tmp_path: Path) -> None:
    switch = device("sw", "Gi1/0/1", "Vlan100 10.1.0.1/16 members=Gi1/0/1", "Te1 172.31.0.1/31",
                    metered=("Gi1/0/1:ingress", "Vlan100:ingress"))
    declaration = declared(tmp_path, [switch], TRAFFIC + 'from = ["sw:Gi1/0/1"]\nto = ["sw:Te1"]\n')
    assert ways(declaration) == ["sw:Gi1/0/1:in sw:Vlan100:in sw:Te1:eg"]


def routes(folder: Path, name: str, found: list[dict[str, Any]]) -> str:
    (folder / name).write_text(json.dumps(found))
    return f'routes = "{name}"'


def test_a_loop_is_wrong_with_both_devices(tmp_path: Path) -> None:
    pair = [device("a", "lan 10.0.0.1/24", "x 172.31.0.0/31"), device("b", "x 172.31.0.1/31")]
    members = {"a": routes(tmp_path, "a.json", [{"dst": "default", "gateway": "172.31.0.1", "dev": "x"}]),
               "b": routes(tmp_path, "b.json", [{"dst": "default", "gateway": "172.31.0.0", "dev": "x"}])}
    rest = TRAFFIC + 'destination = "198.51.100.0/24"\ningress = ["a:lan"]\n'
    assert any("go in a circle: a > b > a" in says for says in wrongs(declared(tmp_path, pair, rest, **members)))
    assert not wrongs(declared(tmp_path, pair, rest + 'loops = "drop"\n', **members))


def test_a_shared_segment_goes_by_the_owner_of_the_gateway(tmp_path: Path) -> None:
    three = [device("a", "lan 10.0.0.1/24", "x 172.31.0.1/29"), device("b", "x 172.31.0.2/29", "up 203.0.113.1/24"),
             device("c", "x 172.31.0.3/29", "up 203.0.114.1/24")]
    members = {"a": routes(tmp_path, "a.json", [{"dst": "default", "gateway": "172.31.0.3", "dev": "x"}]),
               "c": routes(tmp_path, "c.json", [{"dst": "default", "gateway": "203.0.114.9", "dev": "up"}])}
    rest = TRAFFIC + 'destination = "198.51.100.0/24"\ningress = ["a:lan"]\n'
    assert ways(declared(tmp_path, three, rest, **members)) == ["a:lan:in a:x:eg c:x:in c:up:eg"]


def test_ipv6_by_link_local_gateways(tmp_path: Path) -> None:
    pair = [device("a", "lan 2001:db8:1::1/64", "x fe80::1/64 2001:db8:f::/127"),
            device("b", "x fe80::1/64 2001:db8:f::1/127", "up 2001:db8:e::1/64")]
    members = {"a": routes(tmp_path, "a.json", [{"dst": "default", "gateway": "fe80::1", "dev": "x"}]),
               "b": routes(tmp_path, "b.json", [{"dst": "2001:db8:2::/48", "gateway": "2001:db8:e::2", "dev": "up"}])}
    rest = ('[[traffic]]\nname = "six"\nsource = "2001:db8:1::/64"\ndestination = "2001:db8:2::/48"\ningress = ["a:lan"]\n')
    declaration = declared(tmp_path, pair, rest, **members)
    assert ways(declaration) == ["a:lan:in a:x:eg b:x:in b:up:eg"]
    assert declaration.classes[0].region == {"sourceIPv6Address": "2001:db8:1::/64", "destinationIPv6Address":
                                             "2001:db8:2::/48", "ipVersion": "6"}


def test_recursive_next_hops_and_direct_hosts(tmp_path: Path) -> None:
    (tmp_path / "a.txt").write_text("""Codes: C - connected, B - BGP
B     198.51.100.0/24 [200/0] via 192.0.2.9, 1d02h
O     192.0.2.9/32 [110/2] via 203.0.113.9, 00:01:02, TenGigabitEthernet0/1/0
      10.0.0.0/8 is variably subnetted, 2 subnets, 2 masks
C        10.1.0.0/16 is directly connected, GigabitEthernet0/0/0
L        10.1.0.1/32 is directly connected, GigabitEthernet0/0/0
S        10.9.0.0/16 is directly connected, Null0
""")
    rest = TRAFFIC + 'destination = ["198.51.100.0/24", "10.1.0.0/16", "10.9.0.0/16"]\ningress = ["edge-1:Gi0/0/1"]\n'
    declaration = declared(tmp_path, [EDGE], rest, edge_1='routes = "a.txt"')
    assert {one.region["destinationIPv4Address"]: [" ".join(c.interface for c in path) for path in one.paths]
            for one in declaration.classes} == {
        "198.51.100.0/24": ["GigabitEthernet0/0/1 TenGigabitEthernet0/1/0"],
        "10.1.0.0/16": ["GigabitEthernet0/0/1 GigabitEthernet0/0/0"], "10.9.0.0/16": ["GigabitEthernet0/0/1"]}


IOS = """Codes: L - local, C - connected, S - static, R - RIP, O - OSPF, B - BGP
Gateway of last resort is 203.0.113.254 to network 0.0.0.0

S*    0.0.0.0/0 [1/0] via 203.0.113.254
      10.0.0.0/16 is subnetted, 2 subnets
O        10.2.0.0 [110/20] via 172.31.0.4, 00:01:02, GigabitEthernet0/0
                  [110/20] via 172.31.0.6, 00:01:02, GigabitEthernet0/1
O E2     10.3.0.0 [110/20] via 172.31.0.4, 3d04h, GigabitEthernet0/0
"""
IOS_6 = """IPv6 Routing Table - default - 4 entries
Codes: C - Connected, L - Local, S - Static, O - OSPF Intra
S   ::/0 [1/0]
     via 2001:DB8:F::1
O   2001:DB8:1::/48 [110/20]
     via FE80::1, GigabitEthernet0/0
     via FE80::2, GigabitEthernet0/1
C   2001:DB8:A::/48 [0/0]
     via GigabitEthernet0/0/0, directly connected
L   2001:DB8:A::1/128 [0/0]
     via GigabitEthernet0/0/0, receive
"""
XR = """Codes: C - connected, S - static, i - ISIS
C    10.1.0.0/16 is directly connected, 1w2d, GigabitEthernet0/0/0/0
L    10.1.0.1/32 is directly connected, 1w2d, GigabitEthernet0/0/0/0
i L2 10.2.0.0/16 [115/20] via 172.31.0.4, 1w2d, Bundle-Ether1
                 [115/20] via 172.31.0.6, 1w2d, Bundle-Ether2
"""
EOS_TEXT = """VRF: default
Codes: C - connected, S - static, B E - eBGP
 C        10.1.0.0/16 is directly connected, Ethernet1
 B E      10.2.0.0/16 [200/0] via 172.31.0.4, Ethernet2
                              via 172.31.0.6, Ethernet3
"""
CEF = """Prefix               Next Hop             Interface
0.0.0.0/0            203.0.113.254        GigabitEthernet0/2
10.2.0.0/16          172.31.0.4           GigabitEthernet0/0
                     172.31.0.6           GigabitEthernet0/1
10.2.0.1/32          receive              GigabitEthernet0/2
10.3.0.0/16          attached             GigabitEthernet0/3
10.4.0.0/16          drop
"""
JUNOS = """
inet.0: 4 destinations, 4 routes (4 active, 0 holddown, 0 hidden)
+ = Active Route, - = Last Active, * = Both

0.0.0.0/0          *[BGP/170] 1d 00:00:00, localpref 100
                      AS path: 65001 I, validation-state: unverified
                    > to 203.0.113.254 via xe-0/0/2.0
10.2.0.0/16        *[OSPF/10] 1d, metric 2
                      to 172.31.0.4 via xe-0/0/0.0
                    > to 172.31.0.6 via xe-0/0/1.0
                    [Static/250] 1d
                    > to 9.9.9.9 via xe-9/9/9.0
10.3.0.1/32        *[Local/0] 1d
                      Local via xe-0/0/3.0
10.4.0.0/16        *[Static/5] 1d
                      Discard
CUST.inet.0: 1 destinations, 1 routes (1 active, 0 holddown, 0 hidden)
10.5.0.0/16        *[Direct/0] 1d
                    > via xe-0/0/5.0
"""
JUNOS_JSON = {"route-information": [{"route-table": [{"table-name": [{"data": "inet.0"}], "rt": [
    {"rt-destination": [{"data": "10.2.0.0/16"}], "rt-entry": [
        {"active-tag": [{"data": "*"}], "protocol-name": [{"data": "OSPF"}], "nh": [
            {"to": [{"data": "172.31.0.4"}], "via": [{"data": "xe-0/0/0.0"}]},
            {"selected-next-hop": [{"data": [None]}], "to": [{"data": "172.31.0.6"}], "via": [{"data": "xe-0/0/1.0"}]}]}]}]}]}]}
EOS = {"vrfs": {"default": {"routes": {"10.2.0.0/16": {"routeAction": "forward", "vias": [
    {"nexthopAddr": "172.31.0.4", "interface": "Ethernet1"}, {"nexthopAddr": "172.31.0.6", "interface": "Ethernet2"}]}}}}}
FRR = {"default": {"10.2.0.0/16": [{"selected": True, "installed": True, "vrfName": "default", "nexthops": [
    {"fib": True, "ip": "172.31.0.4", "interfaceName": "eth0"}, {"ip": "172.31.0.6", "interfaceName": "eth1"}]}]},
    "CUST": {"10.2.0.0/16": [{"selected": True, "installed": True, "vrfName": "CUST", "nexthops": [
        {"fib": True, "interfaceName": "eth5"}]}]}}


@pytest.mark.parametrize("text, expected", [
    (IOS, {"0.0.0.0/0": ["/203.0.113.254"], "10.2.0.0/16": ["GigabitEthernet0/0/172.31.0.4", "GigabitEthernet0/1/172.31.0.6"],
           "10.3.0.0/16": ["GigabitEthernet0/0/172.31.0.4"]}),
    (IOS_6, {"::/0": ["/2001:db8:f::1"], "2001:db8:1::/48": ["GigabitEthernet0/0/fe80::1", "GigabitEthernet0/1/fe80::2"],
             "2001:db8:a::/48": ["GigabitEthernet0/0/0/None"]}),
    (XR, {"10.1.0.0/16": ["GigabitEthernet0/0/0/0/None"], "10.2.0.0/16": ["Bundle-Ether1/172.31.0.4", "Bundle-Ether2/172.31.0.6"]}),
    (EOS_TEXT, {"10.1.0.0/16": ["Ethernet1/None"], "10.2.0.0/16": ["Ethernet2/172.31.0.4", "Ethernet3/172.31.0.6"]}),
    (CEF, {"0.0.0.0/0": ["GigabitEthernet0/2/203.0.113.254"], "10.2.0.0/16":
           ["GigabitEthernet0/0/172.31.0.4", "GigabitEthernet0/1/172.31.0.6"],
           "10.3.0.0/16": ["GigabitEthernet0/3/None"], "10.4.0.0/16": []}),
    (JUNOS, {"0.0.0.0/0": ["xe-0/0/2.0/203.0.113.254"], "10.2.0.0/16": ["xe-0/0/0.0/172.31.0.4", "xe-0/0/1.0/172.31.0.6"],
             "10.4.0.0/16": [], "CUST 10.5.0.0/16": ["xe-0/0/5.0/None"]}),
    (json.dumps(JUNOS_JSON), {"10.2.0.0/16": ["xe-0/0/0.0/172.31.0.4", "xe-0/0/1.0/172.31.0.6"]}),
    (json.dumps(EOS), {"10.2.0.0/16": ["Ethernet1/172.31.0.4", "Ethernet2/172.31.0.6"]}),
    (json.dumps(FRR), {"10.2.0.0/16": ["eth0/172.31.0.4"], "CUST 10.2.0.0/16": ["eth5/None"]}),
])
def test_forms_of_routing_tables(text: str, expected: dict[str, list[str]]) -> None:
    tables = Tables()
    read_routes(Source("routes", text), tables)
    found = {f"{vrf} {route.prefix}".strip(): [f"{hop.interface}/{hop.gateway}" for hop in route.hops]
             for vrf, table in tables.by_vrf.items() for route in table.routes.values()}
    assert found == expected
    is_junos = "xe-0/0/1.0" in text
    assert [(one.grade, "each is a path" in one.says) for one in tables.findings] == [(Grade.NOTE, True)] * is_junos


def test_lines_that_are_no_routes_are_reported() -> None:
    tables = Tables()
    read_routes(Source("routes", IOS + "B?? 10.7.0.0/16 weird via 1.2.3.4, Gi0/0\n"), tables)
    assert [(one.grade, one.place.line) for one in tables.findings] == [(Grade.NOT_CARRIED_OVER, 9)]


def test_longest_prefixes_win() -> None:
    tables = Tables()
    read_routes(Source("r", json.dumps([{"dst": "default", "gateway": "192.0.2.1", "dev": "a"},
                                        {"dst": "10.0.0.0/8", "dev": "b", "metric": 5}, {"dst": "10.0.0.0/8", "dev": "z", "metric": 9},
                                        {"dst": "10.1.0.0/16", "type": "blackhole"}])), tables)
    table = tables.by_vrf[""]
    for address, interface in (("192.0.2.9", ["a"]), ("10.9.0.1", ["b"]), ("10.1.2.3", [])):
        route = table.lookup(4, int(ipaddress.IPv4Address(address)))
        assert route and [hop.interface for hop in route.hops] == interface


def with_tunnel(one: Device, address: str, source: str, destination: str) -> Device:
    one.interfaces.append(Interface("Tunnel0", Place(""), addresses=[address], tunnel_source=source,
                                    tunnel_destination=destination))
    return one


def test_tunnels_join_devices_and_have_outer_packets(tmp_path: Path) -> None:
    a = with_tunnel(device("a", "lan 10.0.0.1/24", "wan 192.0.2.1/31"), "10.255.0.0/31", "wan", "192.0.2.3")
    b = with_tunnel(device("b", "lan 10.1.0.1/24", "wan 192.0.2.3/31"), "10.255.0.1/31", "192.0.2.3", "192.0.2.1")
    core = device("core", "a 192.0.2.0/31", "b 192.0.2.2/31")
    rest = TRAFFIC + 'from = ["a:lan"]\nto = ["b:lan"]\n'
    declaration = declared(tmp_path, [a, core, b], rest)
    inner, outer = declaration.classes
    assert "a:lan:in a:Tunnel0:eg b:Tunnel0:in b:lan:eg" in ways(declaration)
    assert outer.exempt and outer.name == "tunnel of a Tunnel0" and ways(declaration, 1) == ["a:wan:eg core:a:in core:b:eg b:wan:in"]
    assert outer.region == {"sourceIPv4Address": "192.0.2.1", "destinationIPv4Address": "192.0.2.3", "protocolIdentifier": "47",
                            "ipVersion": "4"}
    own = '[[traffic]]\nname = "outer"\nsource = "192.0.2.1"\nprotocol = 47\nexempt = true\npaths = [["core:a:ingress"]]\n'
    assert [one.name for one in declared(tmp_path, [a, core, b], rest + own).classes] == ["up", "outer"]


def test_outer_packets_by_tables(tmp_path: Path) -> None:
    a = with_tunnel(device("a", "lan 10.0.0.1/24", "wan 192.0.2.1/31"), "10.255.0.0/31", "wan", "192.0.2.3")
    found = [{"dst": "10.1.0.0/24", "dev": "Tunnel0", "scope": "link"}, {"dst": "default", "gateway": "192.0.2.0", "dev": "wan"}]
    rest = TRAFFIC + 'destination = "10.1.0.0/24"\ningress = ["a:lan"]\n'
    declaration = declared(tmp_path, [a], rest, a=routes(tmp_path, "a.json", found))
    assert ways(declaration) == ["a:lan:in a:Tunnel0:eg"] and ways(declaration, 1) == ["a:wan:eg"]


def test_tables_of_several_moments_are_united(tmp_path: Path) -> None:
    first = [{"dst": "10.9.0.0/16", "dev": "x", "gateway": "172.31.0.9"}, {"dst": "default", "dev": "y", "gateway": "1.1.1.1"}]
    routes(tmp_path, "first.json", first)
    routes(tmp_path, "second.json", first[1:])
    routes(tmp_path, "six.json", [{"dst": "2001:db8::/32", "dev": "x", "gateway": "fe80::9"}])
    one = device("a", "lan 10.0.0.1/24", "x 172.31.0.8/24", "y 1.1.1.2/24")
    rest = TRAFFIC + 'destination = "10.9.0.0/24"\ningress = ["a:lan"]\n'
    declaration = declared(tmp_path, [one], rest, a='routes = ["first.json", "second.json", "six.json"]')
    assert ways(declaration) == ["a:lan:in a:x:eg", "a:lan:in a:y:eg"]


def test_a_device_without_a_table_is_wrong(tmp_path: Path) -> None:
    pair = [device("a", "lan 10.0.0.1/24", "x 172.31.0.0/31"), device("b", "x 172.31.0.1/31", "up 203.0.113.1/24")]
    member = routes(tmp_path, "a.json", [{"dst": "default", "gateway": "172.31.0.1", "dev": "x"}])
    declaration = declared(tmp_path, pair, TRAFFIC + 'destination = "10.9.0.0/24"\ningress = ["a:lan"]\n', a=member)
    assert "packets to 10.9.0.0/24 reach b, whose routing table is not given" in wrongs(declaration)


@pytest.mark.parametrize("name, expected", [
    ("Gi0/0/0", ["GigabitEthernet0/0/0"]), ("gigabitethernet0/0/0", ["GigabitEthernet0/0/0"]), ("Te0/1/0", ["TenGigE0/1/0"]),
    ("BE1", ["Bundle-Ether1"]), ("ge-0/0/0", ["ge-0/0/0.0", "ge-0/0/0.7"]), ("G0/0/0", []), ("Gi0/0/9", []),
    ("GigabitEthernet0/0/1", [])])
def test_names_of_interfaces(name: str, expected: list[str]) -> None:
    names = ["GigabitEthernet0/0/0", "TenGigE0/1/0", "Bundle-Ether1", "ge-0/0/0.0", "ge-0/0/0.7"]
    assert Spellings(Interface(one, Place("")) for one in names).same(name) == expected


def test_wrong_names_are_wrong(tmp_path: Path) -> None:
    declaration = declared(tmp_path, [EDGE], TRAFFIC + 'from = ["edge-1:Gi0/0/9", "edge-2:x", "custmers"]\nto = ["edge-1:Te0/1/0"]\n')
    found = wrongs(declaration)
    assert any("no interface 'Gi0/0/9'" in says for says in found)
    assert any("no device 'edge-2'" in says for says in found) and any("no role 'custmers'" in says for says in found)


def test_neighbours_by_fully_qualified_names_and_case(tmp_path: Path) -> None:
    (tmp_path / "a.txt").write_text("""-------------------------
Device ID: B.example.net(ABC123)
Interface: TenGigabitEthernet0/1/0,  Port ID (outgoing port): TenGigabitEthernet0/1/9
""")
    pair = [EDGE, device("b", "TenGigabitEthernet0/1/9 172.31.0.9/24", "up 203.0.113.1/24")]
    rest = TRAFFIC + 'from = ["edge-1:Gi0/0/0"]\nto = ["b:up"]\n'
    declaration = declared(tmp_path, pair, "[links]\nsubnets = false\n" + rest, edge_1='lldp = "a.txt"')
    assert ways(declaration) == ["edge-1:GigabitEthernet0/0/0:in edge-1:TenGigabitEthernet0/1/0:eg "
                                 "b:TenGigabitEthernet0/1/9:in b:up:eg"]


def test_neighbours_that_disagree_are_wrong(tmp_path: Path) -> None:
    for name, other, port in (("a", "b", "x"), ("b", "a", "y")):
        (tmp_path / f"{name}.json").write_text(json.dumps({"lldp": {"interface": [
            {"x": {"chassis": {other: {}}, "port": {"id": {"type": "ifname", "value": port}}}}]}}))
    pair = [device("a", "x 172.31.0.0/31", "y 172.31.0.2/31"), device("b", "x 172.31.0.1/31")]
    declaration = declared(tmp_path, pair, TRAFFIC + 'from = ["a:y"]\nto = ["b:x"]\n', a='lldp = "a.json"', b='lldp = "b.json"')
    assert any("leads to" in says and "a.json" in says for says in wrongs(declaration))


def neighbour(folder: Path, system: str, port: dict[str, Any]) -> str:
    found = {"lldp": {"interface": [{"TenGigabitEthernet0/1/0": {"chassis": {system: {}}, "port": port}}]}}
    (folder / "lldp.json").write_text(json.dumps(found))
    return 'lldp = "lldp.json"'


def test_a_neighbour_without_an_interface_name_is_wrong(tmp_path: Path) -> None:
    member = neighbour(tmp_path, "b", {"id": {"type": "mac", "value": "02:00:00:00:00:01"}})
    pair = [EDGE, device("b", "x 172.31.0.9/24", "up 203.0.113.1/24")]
    declaration = declared(tmp_path, pair, TRAFFIC + 'from = ["edge-1:Gi0/0/0"]\nto = ["b:up"]\n', edge_1=member)
    assert any("names its port by no interface" in says for says in wrongs(declaration))


def test_a_neighbour_that_may_be_either_of_two_is_wrong(tmp_path: Path) -> None:
    member = neighbour(tmp_path, "CORE.example.net", {"id": {"type": "ifname", "value": "x"}})
    three = [EDGE, device("core.north", "x 172.31.0.9/24"), device("core.south", "x 172.31.0.10/24")]
    declaration = declared(tmp_path, three, TRAFFIC + 'from = ["edge-1:Gi0/0/0"]\nto = ["edge-1:Te0/1/0"]\n', edge_1=member)
    assert any("may be any of core.north, core.south" in says for says in wrongs(declaration))


def test_a_full_table_asks_for_merged_paths(tmp_path: Path) -> None:
    found = [{"dst": f"20.{number // 128}.{number % 128 * 2}.0/24", "gateway": "172.31.0.9", "dev": "x"} for number in range(5100)]
    one = device("a", "lan 10.0.0.1/24", "x 172.31.0.8/24")
    member = routes(tmp_path, "a.json", found)
    rest = TRAFFIC + 'destination = "0.0.0.0/0"\ningress = ["a:lan"]\n'
    declaration = declared(tmp_path, [one], rest, a=member)
    assert any("into 10201 pieces" in says for says in wrongs(declaration))
    merged = declared(tmp_path, [one], rest + 'merge = "paths"\n', a=member)
    assert not wrongs(merged) and sorted(ways(merged)) == ["a:lan:in", "a:lan:in a:x:eg"]
    assert merged.classes[0].region == {"sourceIPv4Address": "10.0.0.0/8", "ipVersion": "4"}


def test_traffic_without_ingress_is_wrong(tmp_path: Path) -> None:
    one = device("a", "lan 10.0.0.1/24", "x 172.31.0.8/24")
    member = routes(tmp_path, "a.json", [{"dst": "198.51.100.0/24", "gateway": "172.31.0.9", "dev": "x"}])
    declaration = declared(tmp_path, [one], TRAFFIC + 'destination = "198.51.100.0/24"\n', a=member)
    assert any("no ingress is found" in says for says in wrongs(declaration)) and not declaration.classes


def test_premises_of_configurations(tmp_path: Path) -> None:
    (tmp_path / "edge-1.cfg").write_text("interface Gi0/0/0\n ip policy route-map PBR\n ip nat inside\n ip access-group A in\n"
                                         "interface Tunnel0\n tunnel source Gi0/0/0\n ip mtu 1400\n")
    declaration = declared(tmp_path, [EDGE], TRAFFIC + 'from = ["edge-1:Gi0/0/0"]\nto = ["edge-1:Te0/1/0"]\n',
                           edge_1='config = "edge-1.cfg"')
    assert [(one.place.line, one.grade.value) for one in declaration.findings if one.place.line] == [
        (2, "not carried over"), (3, "not carried over"), (4, "premise"), (6, "premise"), (7, "premise")]


@pytest.mark.parametrize("kind, text, line", [
    ("mikrotik", "/ip firewall nat add chain=srcnat action=masquerade out-interface=ether1 disabled=yes\n", 0),
    ("mikrotik", "/ip firewall nat add chain=srcnat action=masquerade out-interface=ether1\n", 1),
    (EDGE.kind, "set nat source rule 10 outbound-interface 'eth1'\nset nat source rule 10 disable\n", 0),
    (EDGE.kind, "set nat source rule 10 disable\nset nat source rule 11 outbound-interface 'eth1'\n", 2),
    (EDGE.kind, "deactivate security nat\nset security nat source rule-set A from zone trust\n", 0),
    (EDGE.kind, "deactivate security natural\nset security nat source rule-set A from zone trust\n", 2)])
def test_premises_of_statements_that_are_not_in_force(tmp_path: Path, kind: str, text: str, line: int) -> None:
    """A translation that is disabled or deactivated translates nothing; 0 is no finding."""
    (tmp_path / "edge-1.cfg").write_text(text)
    declaration = declared(tmp_path, [replace(EDGE, kind=kind)], TRAFFIC + 'from = ["edge-1:Gi0/0/0"]\nto = ["edge-1:Te0/1/0"]\n',
                           edge_1='config = "edge-1.cfg"')
    assert [one.place.line for one in declaration.findings if one.grade.value == "not carried over"] == ([line] if line else [])


def test_batfish_traces(tmp_path: Path) -> None:
    hop = {"node": {"name": "edge-1"}, "steps": [
        {"type": "Receive", "detail": {"inputInterface": {"interface": "GigabitEthernet0/0/0"}}},
        {"type": "Transmit", "detail": {"outputInterface": {"interface": "TenGigabitEthernet0/1/0"}}}]}
    dropped = {"node": {"name": "edge-1"}, "steps": hop["steps"][:1]}  # type: ignore[index]
    (tmp_path / "trace.json").write_text(json.dumps([{"Traces": [
        {"disposition": "EXITS_NETWORK", "hops": [hop]}, {"disposition": "DENIED_IN", "hops": [dropped]}]}]))
    declaration = declared(tmp_path, [EDGE], TRAFFIC + 'batfish = "trace.json"\n')
    assert ways(declaration) == ["edge-1:GigabitEthernet0/0/0:in edge-1:TenGigabitEthernet0/1/0:eg",
                                 "edge-1:GigabitEthernet0/0/0:in"]


def test_written_paths_and_versions(tmp_path: Path) -> None:
    rest = '[[traffic]]\nname = "t"\nsource = ["10.1.0.0/16", "2001:db8:a::/48"]\npaths = [["edge-1:Gi0/0/0:ingress"], []]\n'
    declaration = declared(tmp_path, [EDGE], rest)
    assert [(one.name, one.region["ipVersion"]) for one in declaration.classes] == [("t", "4"), ("t over IPv6", "6")]
    assert ways(declaration) == ["edge-1:GigabitEthernet0/0/0:in", ""]


def test_cutting_joins_equal_paths(tmp_path: Path) -> None:
    switch = device("a", "in 10.1.0.1/16", "x 10.2.0.1/16", "y 10.3.0.1/16", metered=("in:ingress",))
    rest = TRAFFIC + 'from = ["a:in"]\nto = ["a:x", "a:y"]\n'
    declaration = declared(tmp_path, [switch], rest)
    assert len(ways(declaration)) == 2 and ways(cut_to_metered(declaration, [switch])) == ["a:in:in"]


@pytest.mark.parametrize("name, text", [("routes", "[{]"), ("routes", '{"vrfs": 3}'), ("routes", "hello"), ("routes", '[{"dst": 3}]'),
                                        ("addresses", "[1]"), ("addresses", "x"), ("lldp", '{"lldp": 1}'), ("lldp", "\x00")])
def test_damaged_files_are_wrong(tmp_path: Path, name: str, text: str) -> None:
    (tmp_path / "file").write_text(text)
    declaration = declared(tmp_path, [EDGE], TRAFFIC + 'from = ["edge-1:Gi0/0/0"]\nto = ["edge-1:Te0/1/0"]\n',
                           edge_1=f'{name} = "file"')
    assert [one.place.file for one in declaration.findings if one.grade in (Grade.WRONG, Grade.NOT_CARRIED_OVER)] == ["file"]


def test_a_subinterface_of_a_bundle_is_crossed_with_the_member_that_is_metered(tmp_path: Path) -> None:
    """What a member meters has the packets of all subinterfaces of its bundle."""
    one = device("a", "po1 members=e1", "po1.100 10.1.0.1/16", "e1", "x 10.2.0.1/16", metered=("e1:ingress", "po1.100:ingress"))
    one.interfaces[1].parent = "po1"
    declaration = declared(tmp_path, [one], TRAFFIC + 'from = ["a:po1.100"]\nto = ["a:x"]\n')
    assert ways(declaration) == ["a:e1:in a:po1.100:in a:x:eg"]
