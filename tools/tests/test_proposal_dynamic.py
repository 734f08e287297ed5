"""Interfaces whose addresses are not in the configuration are part of the proposal: a customer's uplink often has one by DHCP."""
from __future__ import annotations

from pathlib import Path

import pytest

from test_proposal_roles import proposed

VYOS = ("set system host-name 'r'\nset interfaces ethernet eth1 address '10.1.0.1/24'\nset interfaces ethernet eth2 address "
        "'10.2.0.1/24'\nset system flow-accounting interface 'eth1'\nset system flow-accounting interface 'eth2'\n"
        "set system flow-accounting netflow server 192.0.2.1 port '2055'\n")
MIKROTIK = ("/system identity set name=r\n/interface ethernet set [ find default-name=ether1 ] name=eth0\n/ip address add "
            "address=10.1.0.1/24 interface=eth1\n/ip address add address=10.2.0.1/24 interface=eth2\n/ip traffic-flow set "
            "enabled=yes interfaces=eth1,eth2\n/ip traffic-flow target add dst-address=192.0.2.1 port=2055 version=ipfix\n")
EOS = ("! show running-config, EOS\nhostname r\nflow tracking hardware\n   tracker T\n      exporter E\n         collector "
       "192.0.2.1 port 2055\n   no shutdown\ninterface eth0\n   no switchport\n   STATEMENT\ninterface eth1\n   no switchport\n"
       "   ip address 10.1.0.1/24\n   flow tracker hardware T\ninterface eth2\n   no switchport\n   ip address 10.2.0.1/24\n"
       "   flow tracker hardware T\n")
JUNOS = ("set system host-name r\nset chassis fpc 0 sampling-instance I\nset forwarding-options sampling instance I input rate 1\n"
         "set forwarding-options sampling instance I family inet output flow-server 192.0.2.1 port 2055\n"
         "set forwarding-options sampling instance I family inet output inline-jflow source-address 192.0.2.9\n"
         "set interfaces ge-0/0/1 unit 0 family inet address 10.1.0.1/24\n"
         "set interfaces ge-0/0/1 unit 0 family inet sampling input\n"
         "set interfaces ge-0/0/2 unit 0 family inet address 10.2.0.1/24\n"
         "set interfaces ge-0/0/2 unit 0 family inet sampling input\n")

TEXTS = {
    "vyos-dhcp": (VYOS + "set interfaces ethernet eth0 address 'dhcp'\n", "r:eth0"),
    "mikrotik-dhcp": (MIKROTIK + "/ip dhcp-client add interface=eth0\n", "r:eth0"),
    "eos-dhcp": (EOS.replace("STATEMENT", "ip address dhcp"), "r:eth0"),
    "eos-unnumbered": (EOS.replace("STATEMENT", "ip address unnumbered Loopback0"), "r:eth0"),
    "junos-dhcp": (JUNOS + "set interfaces ge-0/0/0 unit 0 family inet dhcp\n", "r:ge-0/0/0.0"),
}


@pytest.mark.parametrize("name", TEXTS)
def test_an_uplink_without_an_address_of_its_own(tmp_path: Path, name: str) -> None:
    """Nothing meters what comes in at the uplink: it must be part of the traffic, so that the audit finds that."""
    text, uplink = TEXTS[name]
    found, _ = proposed(tmp_path, r_cfg=text)
    assert found["roles"]["core"] == [uplink] and len(found["roles"]["customers"]) == 2
    assert [one["name"] for one in found["traffic"]] == ["up", "down", "between customers"]


@pytest.mark.parametrize("statement", ["ip helper-address 10.9.9.9", "! ip address dhcp", "no ip address dhcp", "mtu 9000"])
def test_an_interface_without_any_address_is_named_in_a_comment(tmp_path: Path, statement: str) -> None:
    found, text = proposed(tmp_path, r_cfg=EOS.replace("STATEMENT", statement))
    assert "roles" not in found and [one["name"] for one in found["traffic"]] == ["through r"]
    assert "# In no role (no address is known, and nothing meters it for the report): r:eth0" in text
