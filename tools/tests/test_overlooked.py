"""Configurations whose statements about metering are easily overlooked, each with what the device does by its vendor.

Each case was first read in silence, or as something else than it is.
"""
from __future__ import annotations

import random
import re

import pytest

from expected import lines, read_text, shape
from once_tools.model import Device, Grade
from once_tools.readers import READERS
from once_tools.report import line_of
from once_tools.source import Source
from test_mutations import kind_of, sources

XR = ("flow exporter-map E\n version ipfix\n transport udp 4739\n destination 192.0.2.10\nflow monitor-map M\n record ipv4\n"
      " exporter E\nsampler-map S\n random 1 out-of 1\n")
EOS = ("flow tracking hardware\n   tracker T\n      exporter E\n         collector 192.0.2.10\n   no shutdown\n")
VRP = ("sysname r\nip netstream export version ipfix\nip netstream export host 192.0.2.10 4739\n"
       "ip netstream sampler fix-packets 1 inbound\n")
VYOS = ("set interfaces ethernet eth0 address 10.1.0.1/16\nset system flow-accounting netflow server 192.0.2.10 port 4739\n"
        "set system flow-accounting netflow version 10\nset system flow-accounting interface eth0\n")
RSC = ("/interface ethernet set [ find default-name=ether1 ] comment=core\n/ip traffic-flow set enabled=yes interfaces=ether1,ether2\n"
       "/ip traffic-flow target add dst-address=192.0.2.10 port=4739 version=ipfix\n/ip address add address=10.6.0.1/16 interface=ether2\n")


def metered(device: Device) -> list[str]:
    return [name for point in device.points for name in point.interfaces]


def graded(device: Device, text: str) -> list[Grade]:
    """Returns the grades of the findings at lines with a text."""
    return [one.grade for one in device.findings if one.place.text == text]


# Statements about flows that have a form which the reader does not know: each is not carried over.
UNKNOWN = [
    ("cisco-xr", XR + "interface GigabitEthernet0/0/0/1\n no flow ipv4 monitor M ingress\n", "no flow ipv4 monitor M ingress"),
    ("cisco-xr", XR + "int gi0/0/0/1\n flow ipv4 monitor M ingress\n", "flow ipv4 monitor M ingress"),
    ("cisco-xr", XR + "interface GigabitEthernet0/0/0/1\n flow ipv4 mon M ingress\n", "flow ipv4 mon M ingress"),
    ("cisco-xr", XR + "dynamic-template\n type ppp P\n  flow ipv4 monitor M ingress\n", "flow ipv4 monitor M ingress"),
    ("cisco-xr", XR + "no flow exporter-map E\n", "no flow exporter-map E"),
    ("arista-eos", EOS + "interface Ethernet1\n   no flow tracker hardware T\n", "no flow tracker hardware T"),
    ("arista-eos", EOS + "interface Ethernet1-4\n   flow tracker hardware T\n", "flow tracker hardware T"),
    ("arista-eos", EOS + "interface Ethernet1,Ethernet3\n   flow tracker hardware T\n", "flow tracker hardware T"),
    ("arista-eos", EOS + "int Et1\n   flow tracker hardware T\n", "flow tracker hardware T"),
    ("arista-eos", EOS + "no flow tracking sampled\n", "no flow tracking sampled"),
    ("huawei", VRP + "slot 1\n ip netstream frobnicate\n", "ip netstream frobnicate"),
    ("cisco-xr", XR + "hw-module profile netflow ipfix315\n", "hw-module profile netflow ipfix315"),
    ("huawei", VRP + "interface GigabitEthernet0/1/0\n undo ip netstream inbound\n", "undo ip netstream inbound"),
    ("vyos", VYOS + "edit system flow-accounting\n", "edit system flow-accounting"),
    ("vyos", VYOS + "set service ipfix frobnicate\n", "set service ipfix frobnicate"),
    ("nokia-sros", "/configure cflowd no shutdown\n/configure service vpls 1 sap 1/1/1 cflowd\n",
     "/configure service vpls 1 sap 1/1/1 cflowd"),
    ("nokia-sros", "/configure cflowd no shutdown\n/configure router no interface a\n", "/configure router no interface a"),
    ("mikrotik", RSC + "/ip traffic-flow target remove 0\n", "/ip traffic-flow target remove 0")]


@pytest.mark.parametrize("kind, text, line", UNKNOWN)
def test_a_statement_of_an_unknown_form_is_reported(kind: str, text: str, line: str) -> None:
    assert Grade.NOT_CARRIED_OVER in graded(read_text(kind, text), line)


@pytest.mark.parametrize("kind, text, line", [
    ("huawei", VRP + "slot 1\n ip netstream sampler to slot self\n", "ip netstream sampler to slot self"),
    ("nokia-sros", "/configure cflowd no shutdown\n/configure cflowd collector 192.0.2.10:4739 no shutdown\n",
     "/configure cflowd collector 192.0.2.10:4739 no shutdown"),
    ("mikrotik", RSC.replace(" version=ipfix", ""), "/ip traffic-flow target add dst-address=192.0.2.10 port=4739")])
def test_what_is_not_given_is_a_premise(kind: str, text: str, line: str) -> None:
    assert Grade.PREMISE in graded(read_text(kind, text), line)


def test_profiles_of_hardware_tables_are_harmless() -> None:
    text = EOS + "hardware tcam\n   profile P\n      feature flow tracking sampled ipv4\n"
    assert read_text("arista-eos", text).findings == read_text("arista-eos", EOS).findings


def test_descriptions_with_words_of_flows_are_harmless() -> None:
    for kind, text in (("cisco-xr", XR + "interface GigabitEthernet0/0/0/1\n description flow monitor\n"),
                       ("arista-eos", EOS + "interface Ethernet1\n   description flow tracker\n")):
        assert not [one for one in read_text(kind, text).findings if "description" in one.place.text]


def test_a_subinterface_of_layer_two_keeps_its_statements() -> None:
    text = XR + "interface GigabitEthernet0/0/0/1.5 l2transport\n encapsulation dot1q 5\n flow ipv4 monitor M ingress\n"
    assert metered(read_text("cisco-xr", text)) == ["GigabitEthernet0/0/0/1.5"]


# A subinterface goes down with its main interface; the monitor is at the subinterface.
BELOW = [
    ("cisco-xr", XR + "interface GigabitEthernet0/0/0/1\n shutdown\ninterface GigabitEthernet0/0/0/1.5\n encapsulation dot1q 5\n"
     " flow ipv4 monitor M sampler S ingress\n"),
    ("arista-eos", EOS + "interface Ethernet1\n   shutdown\ninterface Ethernet1.5\n   encapsulation dot1q vlan 5\n"
     "   flow tracker hardware T\n"),
    ("huawei", VRP + "interface GigabitEthernet0/1/0\n shutdown\n#\ninterface GigabitEthernet0/1/0.5\n vlan-type dot1q 5\n"
     " ip netstream inbound\n"),
    ("vyos", VYOS.replace("interface eth0\n", "interface eth0.5\n") + "set interfaces ethernet eth0 disable\n"
     "set interfaces ethernet eth0 vif 5 address 10.5.0.1/24\n"),
    ("mikrotik", RSC.replace("interfaces=ether1,ether2", "interfaces=v5").replace("comment=core", "disabled=yes")
     + "/interface vlan add interface=ether1 name=v5 vlan-id=5\n")]


@pytest.mark.parametrize("kind, text", BELOW)
def test_a_subinterface_of_an_interface_that_is_shut_meters_nothing(kind: str, text: str) -> None:
    device = read_text(kind, text)
    assert metered(device) == [] and any("left out" in line for line in lines(device, Grade.NOTE))
    opened = re.sub(r"\n( +)shutdown\n|disabled=yes|eth0 disable\n", lambda found: {"d": "comment=x", "e": "eth0 mtu 1500\n"}.get(
        found[0][0], f"\n{found[1]}description x\n"), text)
    assert opened != text
    assert len(metered(read_text(kind, opened))) == 1


# A version of IP that runs at an interface without an address of its own.
VERSIONS = [
    ("cisco-xr", XR + "interface GigabitEthernet0/0/0/1\n ipv6 enable\n", {6}),
    ("cisco-xr", XR + "interface GigabitEthernet0/0/0/1\n ipv4 unnumbered Loopback0\n", {4}),
    ("arista-eos", EOS + "interface Ethernet1\n   ipv6 enable\n   ip address dhcp\n", {4, 6}),
    ("huawei", VRP + "interface GigabitEthernet0/1/0\n ipv6 address auto link-local\n", {6}),
    ("huawei", VRP + "interface GigabitEthernet0/1/0\n ip address unnumbered interface LoopBack0\n", {4}),
    ("vyos", VYOS + "set interfaces ethernet eth1 address dhcp\nset interfaces ethernet eth1 ipv6 address autoconf\n", {4, 6})]


@pytest.mark.parametrize("kind, text, versions", VERSIONS)
def test_versions_without_an_address(kind: str, text: str, versions: set[int]) -> None:
    assert read_text(kind, text).interfaces[-1].has == versions


def test_ports_of_a_vlan_are_crossed_with_its_interface() -> None:
    svi = "interface Vlan10\n   ip address 10.1.0.1/16\n   flow tracker hardware T\n"
    ports = {"": [], "   switchport access vlan 10\n": ["Ethernet1"], "   switchport mode trunk\n": ["Ethernet1"],
             "   switchport mode trunk\n   switchport trunk allowed vlan 5,9-11\n": ["Ethernet1"],
             "   switchport mode trunk\n   switchport trunk allowed vlan 20\n": [], "   no switchport\n   switchport access vlan 10\n": [],
             "   switchport access vlan 10\n   channel-group 1 mode active\n": []}
    for text, members in ports.items():
        device = read_text("arista-eos", f"{EOS}{svi}interface Ethernet1\n{text}   flow tracker hardware T\n")
        assert next(one.members for one in device.interfaces if one.name == "Vlan10") == members, text


@pytest.mark.parametrize("port, members", [
    (" port link-type access\n port default vlan 10\n", ["GigabitEthernet0/1/0"]), (" port default vlan 11\n", []),
    (" port link-type trunk\n port trunk allow-pass vlan 5 9 to 11\n", ["GigabitEthernet0/1/0"]),
    (" port trunk allow-pass vlan all\n", ["GigabitEthernet0/1/0"]), (" port trunk allow-pass vlan 5 11 to 20\n", [])])
def test_ports_of_a_vlan_of_vrp(port: str, members: list[str]) -> None:
    text = f"{VRP}interface GigabitEthernet0/1/0\n{port} ip netstream inbound\n#\ninterface Vlanif10\n ip address 10.1.0.1 16\n"
    assert next(one.members for one in read_text("huawei", text).interfaces if one.name == "Vlanif10") == members


JUNOS = """set interfaces ge-0/0/0 description customers
set interfaces ge-0/0/0 unit 1 family inet address 10.1.0.1/16
set interfaces ge-0/0/0 unit 2 family inet address 10.2.0.1/16
set interfaces ge-0/0/0 unit 2 description second
set interfaces ge-0/0/1 gigether-options 802.3ad ae0
set interfaces ae0 unit 0 family inet address 10.3.0.1/16
set interfaces xe-0/0/2 unit 0 family inet address 172.31.0.1/31
"""


def test_a_port_of_junos_with_units_is_no_interface_of_its_own() -> None:
    """A pattern that matched the port declared a path without a meter, which the audit refuted."""
    device = read_text("junos", JUNOS)
    assert {one.name: (one.description, one.members) for one in device.interfaces} == {
        "ge-0/0/0.1": ("customers", []), "ge-0/0/0.2": ("second", []), "ge-0/0/1": ("", []), "ae0.0": ("", ["ge-0/0/1"]),
        "xe-0/0/2.0": ("", [])}


def test_units_of_a_port_of_junos_that_is_disabled_are_shut() -> None:
    device = read_text("junos", JUNOS + "set interfaces ge-0/0/0 disable\n")
    assert [one.name for one in device.interfaces if one.is_shut] == ["ge-0/0/0.1", "ge-0/0/0.2"]


def test_vlans_in_vlans_of_vyos() -> None:
    device = read_text("vyos", VYOS + "set interfaces ethernet eth0 vif-s 100 vif-c 7 address 10.7.0.1/24\n"
                       "set system flow-accounting interface eth0.100.7\n")
    assert next(one for one in device.interfaces if one.name == "eth0.100.7").addresses == ["10.7.0.1/24"]
    assert metered(device) == ["eth0", "eth0.100.7"] and not lines(device, Grade.NOT_CARRIED_OVER)


def test_an_ethernet_interface_of_mikrotik_is_known_by_its_first_name() -> None:
    text = RSC.replace("comment=core", "disabled=yes")
    assert metered(read_text("mikrotik", text)) == ["ether2"]
    assert any("ether1 is disabled, and left out" in line for line in lines(read_text("mikrotik", text), Grade.NOTE))


def test_an_interface_that_the_export_of_mikrotik_does_not_have() -> None:
    found = [line for line in lines(read_text("mikrotik", RSC.replace("ether1,ether2", "LAN,ether2")), Grade.PREMISE)
             if "interface LAN is not in this export" in line]
    assert len(found) == 1


def test_ports_of_a_bridge_of_mikrotik() -> None:
    text = RSC.replace("ether1,ether2", "ether1,bridge1") + "/interface bridge add name=bridge1\n/interface bridge port add " \
        "bridge=bridge1 interface=ether1\n"
    assert any("ether1 is a port of bridge1" in line_of(one) and one.grade is Grade.PREMISE for one in read_text("mikrotik", text).findings)


def test_lines_of_mikrotik_that_are_continued_within_a_word() -> None:
    text = """/interface ethernet
set [ find default-name=ether1 ] comment=core
set [ find default-name=ether2 ] name="ether 2"
/ip traffic-flow
set cache-entries=64k enabled=yes interfaces=\\
    "ether1,ether 2"
/ip traffic-flow target
add dst-address=192.0.2.10 port=4739 \\
    version=ipfix
"""
    device = read_text("mikrotik", text)
    assert metered(device) == ["ether1", "ether 2"] and not lines(device, Grade.NOT_CARRIED_OVER)
    assert device.points[0].place.line == 5 and device.exporters[0].place.line == 8
    assert not read_text("mikrotik", text.replace("ether1,ether 2", "")).points


# A member of a bundle that is metered itself.
MEMBERS = [
    ("cisco-xr", XR + "interface Bundle-Ether1\n!\ninterface HundredGigE0/0/0/1\n bundle id 1 mode active\n"
     " flow ipv4 monitor M sampler S ingress\n", ["HundredGigE0/0/0/1"]),
    ("arista-eos", EOS + "interface Port-Channel1\ninterface Ethernet1\n   channel-group 1 mode active\n"
     "   flow tracker hardware T\n", ["Ethernet1"]),
    ("huawei", VRP + "interface Eth-Trunk1\n#\ninterface GigabitEthernet0/1/0\n eth-trunk 1\n ip netstream inbound\n",
     ["GigabitEthernet0/1/0"]),
    ("vyos", VYOS + "set interfaces bonding bond0 member interface eth0\n", []),
    ("vyos", VYOS + "set interfaces bridge br0 member interface eth0\n", []),
    ("mikrotik", RSC.replace("ether1,ether2", "ether1,bond1") + "/interface bonding add name=bond1 slaves=ether1,ether3\n",
     ["ether1", "bond1"])]


@pytest.mark.parametrize("kind, text, points", MEMBERS)
def test_a_monitor_at_a_member_of_a_bundle_is_a_premise(kind: str, text: str, points: list[str]) -> None:
    device = read_text(kind, text)
    assert metered(device) == points
    assert any(" is a member of " in line or " is a port of " in line for line in lines(device, Grade.PREMISE))


def test_virtual_addresses_of_eos() -> None:
    text = EOS + "interface Vlan10\n   ip address virtual 10.7.0.1/24\n   ipv6 address virtual 2001:db8::1/64\n"
    assert read_text("arista-eos", text).interfaces[-1].addresses == ["10.7.0.1/24", "2001:db8::1/64"]


@pytest.mark.parametrize("kind", ["cisco-xr", "arista-eos", "mikrotik", "nokia-sros flat", "huawei", "huawei aggregation"])
def test_the_order_of_sections_means_nothing(kind: str) -> None:
    (source,) = sources(kind)
    sections: list[str] = []
    for line in source.text.split("\n"):
        if line.startswith(" "):
            sections[-1] += "\n" + line
        elif line and line[0] not in "!#" and line not in ("end", "return"):
            sections.append(line)
    found = set()
    for seed in range(8):
        random.Random(seed).shuffle(sections)
        device = READERS[kind_of(kind)].read("device", [Source("config", "\n".join(sections))], {})
        told = sorted((one.grade.value, re.sub(r"line \d+", "", one.says)) for one in device.findings)
        found.add(repr((sorted(shape(device)["points"]), sorted(shape(device)["exporters"]), told)))
    assert len(found) == 1


def test_a_vlan_of_mikrotik_that_is_not_listed() -> None:
    text = RSC + "/interface vlan add interface=ether1 name=v5 vlan-id=5\n"
    assert any("v5 is a VLAN of ether1" in line for line in lines(read_text("mikrotik", text), Grade.PREMISE))
    assert not any("is a VLAN of" in line for line in lines(read_text("mikrotik", text.replace("ether1,ether2", "ether1,v5"))))


def test_vrfs_of_mikrotik() -> None:
    device = read_text("mikrotik", RSC + "/ip vrf add interfaces=ether2 name=cust\n")
    assert next(one.vrf for one in device.interfaces if one.name == "ether2") == "cust"


def test_settings_of_an_interface_in_two_lines_of_mikrotik_add_up() -> None:
    device = read_text("mikrotik", RSC + "/interface ethernet set [ find default-name=ether1 ] disabled=yes\n"
                       "/interface ethernet set [ find default-name=ether1 ] mtu=1500\n")
    (one,) = [each for each in device.interfaces if each.name == "ether1"]
    assert one.is_shut and one.description == "core"
