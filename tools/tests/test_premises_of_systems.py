"""What paths cannot follow in configurations of SR OS, RouterOS and VRP: the grades and lines are worked out by hand from
the text, in which a statement that is shut down or disabled does nothing."""
from __future__ import annotations

from pathlib import Path

import pytest

from expected import SAMPLES
from once_tools.model import Device, Grade, Topic
from once_tools.paths.premises import premises
from once_tools.source import Source
from projects import COLLECTOR, REPORT, made

LOST, PREMISE = Grade.NOT_CARRIED_OVER, Grade.PREMISE
SROS = "nokia-sros"


def found(kind: str, text: str) -> list[tuple[int, Grade]]:
    """Returns the lines and grades of what a configuration says that paths cannot follow."""
    device = Device("r", kind, ["r.cfg"])
    told = premises(device, [Source("r.cfg", text)])
    assert all(one.place.file == "r.cfg" for one in told)
    return sorted(((one.place.line, one.grade) for one in told), key=lambda one: one[0])


CLASSIC = """configure
    port 1/1/1
        ethernet
            mtu 9212
        exit
        no shutdown
    exit
    filter
        ip-filter 10 create
            default-action forward
            entry 10 create
                match protocol tcp
                exit
                action
                    forward next-hop 192.0.2.1
                exit
            exit
            entry 20 create
                action
                    drop
                exit
            exit
        exit
    exit
    router Base
        interface "to core"
            address 192.0.2.2/30
            ip-mtu 1500
            no shutdown
        exit
        mpls
            interface "to core"
                no shutdown
            exit
            no shutdown
        exit
        nat
            inside
                nat-policy "nat-1"
            exit
        exit
    exit
    service
        vprn 10 customer 1 create
            vrf-target target:65000:10
            interface "private" tunnel create
                sap tunnel-1.private:1 create
                    ipsec-tunnel "branch" create
                        no shutdown
                    exit
                exit
            exit
            no shutdown
        exit
    exit
exit
"""
# The port's MTU, policy routing, the filter, MPLS, translation, the import of routes, and the tunnel.
CLASSIC_FOUND = [(4, PREMISE), (15, LOST), (20, PREMISE), (31, PREMISE), (39, LOST), (45, PREMISE), (48, PREMISE)]
BRACES = """configure {
    port 1/1/1 {
        ethernet {
            mtu 9212
        }
    }
    filter {
        ip-filter "10" {
            default-action accept
            entry 10 {
                action {
                    forward {
                        next-hop {
                            nh-ip {
                                address 192.0.2.1
                            }
                        }
                    }
                }
            }
            entry 20 {
                action {
                    drop
                }
            }
        }
    }
    router "Base" {
        ldp {
            admin-state enable
        }
        nat {
            inside {
                nat-policy "nat-1"
            }
        }
    }
    service {
        sdp 20 {
            delivery-type gre
        }
        vprn "10" {
            grt-leaking {
                export-grt {
                    policy-name "all"
                }
            }
        }
    }
}
"""
BRACES_FOUND = [(4, PREMISE), (15, LOST), (23, PREMISE), (30, PREMISE), (34, LOST), (40, PREMISE), (45, PREMISE)]


@pytest.mark.parametrize("text, expected", [(CLASSIC, CLASSIC_FOUND), (BRACES, BRACES_FOUND)], ids=["classic", "braces"])
def test_each_kind_of_sros_once(text: str, expected: list[tuple[int, Grade]]) -> None:
    assert found(SROS, text) == expected


@pytest.mark.parametrize("line, grade", [
    ('/configure router "Base" interface "to core" ip-mtu 9000', PREMISE),
    ('/configure service ies "20" interface "a" ip-mtu 1400', PREMISE),
    ("/configure filter ip-filter \"10\" default-action drop", PREMISE),
    ("/configure filter ip-filter \"10\" entry 5 description web", PREMISE),  # no default action is given
    ('/configure router "Base" rsvp admin-state enable', PREMISE),
    ('/configure router "Base" isis 0 segment-routing admin-state enable', PREMISE),
    ("/configure service sdp 20 mpls create", PREMISE),
    ("/configure service sdp 20 gre create", PREMISE),
    ('/configure service ies "20" interface "a" sap tunnel-1.public:1 ip-tunnel "t" delivery-service 10', PREMISE),
    ('/configure service vprn "10" bgp-ipvpn mpls vrf-import policy ["all"]', PREMISE),
    ('/configure service vprn 10 vrf-target export target:1:1 import target:1:2', PREMISE),
    ('/configure service vprn "10" bgp-ipvpn mpls auto-bind-tunnel resolution-filter ldp true', PREMISE),
    ('/configure service vprn "10" nat outside pool "p" type large-scale', LOST)])
def test_a_line_of_sros(line: str, grade: Grade) -> None:
    assert found(SROS, f"# a comment\n{line}\n") == [(2, grade)]


@pytest.mark.parametrize("lines", [
    '/configure router "Base" interface "a" ip-mtu 9000\n/configure router interface "a" shutdown',
    '/configure router "Base" mpls interface "a"\n/configure router "Base" mpls admin-state disable',
    '/configure port 1/1/1 ethernet mtu 9212\n/configure port 1/1/1 admin-state disable',
    '/configure service vprn 10 customer 1 create\n/configure service vprn 10 vrf-target target:1:1\n'
    '/configure service vprn 10 shutdown',
    '/configure router nat outside pool "p" nat-group 1 type large-scale create\n'
    '/configure router nat outside pool "p" nat-group 1 type large-scale shutdown',
    '/configure filter redirect-policy "unused" destination 192.0.2.1 priority 10',
    '/configure service vprn "10" bgp-ipvpn mpls auto-bind-tunnel resolution-filter ldp false',
    '/configure router interface "a" no ip-mtu',
    '/configure router interface "a" ip-mtu 1500',
    '/configure router interface "a" description "mpls ip-tunnel ip-mtu 9000"',
    '/configure service nat nat-policy "nat-1" pool "p" router Base',
    '/configure service vprn 10 vrf-target export target:1:1',
    '/configure filter ip-filter "10" default-action accept\n/configure filter ip-filter "10" entry 5 action accept'])
def test_what_does_nothing_in_sros(lines: str) -> None:
    assert found(SROS, lines + "\n") == []


def test_policy_routing_of_sros_on_one_line() -> None:
    """Older releases write the action and the next hop on one line."""
    lines = ["/configure filter ip-filter 10 default-action forward",
             "/configure filter ip-filter 10 entry 5 action forward next-hop 192.0.2.1"]
    assert found(SROS, "\n".join(lines) + "\n") == [(2, LOST)]


def test_shut_down_in_the_classic_form() -> None:
    """MPLS and the VPRN are shut down: what is in them is not in force."""
    text = CLASSIC.replace("            exit\n            no shutdown\n        exit\n        nat", "            exit\n"
                           "            shutdown\n        exit\n        nat")
    text = text.replace("            no shutdown\n        exit\n    exit\nexit", "            shutdown\n        exit\n    exit\nexit")
    assert found(SROS, text) == [one for one in CLASSIC_FOUND if one[0] not in (31, 45, 48)]


ROUTEROS = """/interface ethernet set [ find default-name=ether1 ] mtu=9000
/interface gre add name=gre1 remote-address=192.0.2.1
/ip vrf add interfaces=ether3 name=customer
/mpls ldp add lsr-id=192.0.2.9
/ip firewall filter add action=drop chain=forward src-address=10.9.0.0/16
/ip firewall mangle add action=mark-routing chain=prerouting new-routing-mark=isp2
/ip firewall nat
add chain=srcnat action=masquerade out-interface=ether1
/ip route add dst-address=10.8.0.0/16 gateway=192.0.2.3@main routing-table=customer
"""


def test_each_kind_of_routeros_once() -> None:
    assert found("mikrotik", ROUTEROS) == [(1, PREMISE), (2, PREMISE), (4, PREMISE), (5, PREMISE), (6, LOST), (8, LOST),
                                           (9, PREMISE)]


def test_each_kind_of_routeros_disabled() -> None:
    lines = [line if line == "/ip firewall nat" else f"{line} disabled=yes" for line in ROUTEROS.splitlines()]
    assert found("mikrotik", "\n".join(lines) + "\n") == []


@pytest.mark.parametrize("line, grade", [
    *((f"/interface {kind} add name=t", PREMISE) for kind in ("ipip", "eoip", "wireguard")),
    *((f"/ip firewall nat add chain=dstnat action={action} to-addresses=10.0.0.9", LOST)
      for action in ("dst-nat", "src-nat", "netmap")),
    ("/ip route vrf add import-route-targets=1:1 interfaces=ether3 routing-mark=customer", PREMISE),
    ("/routing rule add action=lookup src-address=10.0.0.0/8 table=isp2", LOST),
    ("/ip firewall filter add chain=forward action=reject", PREMISE),
    ("/ip firewall filter add chain=from-customers action=drop", PREMISE),
    ("/ip firewall filter add chain=forward action=drop \\\n    comment=\"no more\"", PREMISE),
    ("/mpls ldp set enabled=yes lsr-id=192.0.2.9", PREMISE),
    ("/routing bgp vpn add import.route-targets=1:1 vrf=customer", PREMISE),
    ("/ip route add dst-address=10.8.0.0/16 gateway=ether3@customer", PREMISE)])
def test_a_command_of_routeros(line: str, grade: Grade) -> None:
    assert found("mikrotik", f"# a comment\n{line}\n") == [(2, grade)]


@pytest.mark.parametrize("line", [
    "/ip firewall nat", "/ip firewall nat add chain=srcnat action=accept", "/ip firewall filter add chain=input action=drop",
    "/ip firewall filter add chain=forward action=accept comment=\"action=drop chain=forward mtu=9000\"",
    "/interface ethernet set [ find default-name=ether1 ] mtu=1500", "/ip firewall mangle add action=mark-packet chain=forward",
    "/ip route add dst-address=10.8.0.0/16 gateway=192.0.2.3@customer routing-table=customer",
    "/ip route add dst-address=10.8.0.0/16 gateway=192.0.2.3@main"])
def test_what_does_nothing_in_routeros(line: str) -> None:
    assert found("mikrotik", line + "\n") == []


VRP = """sysname ne-1
ip vpn-instance customer
 ipv4-family
  vpn-target 65000:1 import-extcommunity
traffic behavior other
 redirect ip-nexthop 192.0.2.1
traffic policy P
 classifier C behavior other
interface GigabitEthernet0/0/1
 mtu 9000
 traffic-policy P inbound
 traffic-filter inbound acl 3000
 nat outbound 2000
 mpls
interface Tunnel0/0/1
 tunnel-protocol gre
"""


def test_each_kind_of_vrp_once() -> None:
    assert found("huawei", VRP) == [(4, PREMISE), (10, PREMISE), (11, LOST), (12, PREMISE), (13, LOST), (14, PREMISE),
                                    (16, PREMISE)]


def test_interfaces_of_vrp_that_are_shut_down() -> None:
    text = VRP.replace("interface Tunnel", " shutdown\ninterface Tunnel") + " shutdown\n"
    assert found("huawei", text) == [(4, PREMISE)]
    assert len(found("huawei", text.replace(" shutdown", " undo shutdown"))) == 7


@pytest.mark.parametrize("text, expected", [
    (VRP.replace("redirect ip-nexthop 192.0.2.1", "remark dscp ef"),
     [(4, PREMISE), (10, PREMISE), (12, PREMISE), (13, LOST), (14, PREMISE), (16, PREMISE)]),
    ("traffic behavior B\n deny\ntraffic policy P\n classifier C behavior B\ninterface A1\n traffic-policy P outbound\n",
     [(6, PREMISE)]),
    # A policy that the text does not define may send packets elsewhere, and may deny some.
    ("interface A1\n traffic-policy P inbound\n", [(2, LOST)]),
    ("traffic policy P\n classifier C behavior B\ninterface A1\n traffic-policy P inbound\n", [(4, LOST)]),
    ("interface A1\n traffic-redirect inbound acl 3000 ip-nexthop 192.0.2.1\n", [(2, LOST)]),
    ("policy-based-route\n rule name A\n  action pbr next-hop 192.0.2.1\n", [(3, LOST)]),
    ("policy-based-route\n rule name A\n  action pbr next-hop 192.0.2.1\n  disable\n", []),
    ("security-policy\n rule name A\n  action deny\n rule name B\n  action permit\n", [(3, PREMISE)]),
    ("nat-policy\n rule name A\n  action source-nat easy-ip\n", [(3, LOST)]),
    ("nat-policy\n rule name A\n  action source-nat easy-ip\n  disable\n", []),
    ("interface A1\n undo mpls\n mtu 1500\n", []),
    ("mpls lsr-id 192.0.2.9\nnat address-group 1 192.0.2.8 192.0.2.9\n", []),
    ("ip vpn-instance V\n ipv4-family\n  vpn-target 1:1 export-extcommunity\n", []),
    ("ip route-static vpn-instance V 10.0.0.0 255.0.0.0 192.0.2.1 public\n", [(1, PREMISE)]),
    ("ip route-static vpn-instance V 10.0.0.0 255.0.0.0 192.0.2.1\n", [])])
def test_statements_of_vrp(text: str, expected: list[tuple[int, Grade]]) -> None:
    assert found("huawei", text) == expected


def told_of(folder: Path, kind: str, text: str, ends: tuple[str, str]) -> list[tuple[int, Grade, Topic, str]]:
    """Returns what an import reports of a router whose packets go from one interface to another."""
    project = f'{REPORT}[[devices]]\nname = "r"\nkind = "{kind}"\nconfig = "r.cfg"\n{COLLECTOR}' \
        f'[[traffic]]\nname = "up"\nfrom = ["r:{ends[0]}"]\nto = ["r:{ends[1]}"]\n'
    return [(one.place.line, one.grade, one.topic, one.says) for one in made(folder, project, r_cfg=text).report.findings]


@pytest.mark.parametrize("action, lines", [("masquerade", [11]), ("accept", []), ("return", [])])
def test_rules_under_nat_that_change_no_address_are_no_translation(tmp_path: Path, action: str, lines: list[int]) -> None:
    text = (SAMPLES / "mikrotik" / "gw-6.rsc").read_text() + f"/ip firewall nat add chain=srcnat action={action}\n"
    told = told_of(tmp_path, "mikrotik", text, ("ether2", "ether1"))
    assert [line for line, grade, topic, _ in told if topic is Topic.NAT and grade is LOST] == lines


@pytest.mark.parametrize("kind, sample, more, ends, line", [
    ("mikrotik", "mikrotik/gw-6.rsc", "/ip firewall mangle add action=mark-routing chain=prerouting new-routing-mark=b\n",
     ("ether2", "ether1"), 11),
    ("nokia-sros", "nokia-sros/pe-1.flat", '/configure filter ip-filter "1" entry 1 action forward next-hop nh-ip address '
     "192.0.2.1\n", ("customer-g", "to-core-1"), 18)])
def test_an_import_reports_policy_routing_on_a_path(tmp_path: Path, kind: str, sample: str, more: str, ends: tuple[str, str],
                                                    line: int) -> None:
    told = told_of(tmp_path, kind, (SAMPLES / sample).read_text() + more, ends)
    assert [at for at, grade, _, says in told if grade is LOST and says.startswith("policy routing")] == [line]
