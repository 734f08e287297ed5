"""Translation of addresses on declared paths: what each meter sees, worked out from the direction of the translation."""
from __future__ import annotations

from pathlib import Path

import pytest

from expected import SAMPLES, finding, read_text
from once_tools.importing import Imported
from once_tools.model import Finding, Grade, Topic
from projects import COLLECTOR, DEVICE, RECORD, REPORT, made

INSIDE = "interface GigabitEthernet0/0\n ip address 10.1.0.1 255.255.0.0\n ip nat inside\n"
OUTSIDE = "interface GigabitEthernet0/1\n ip address 198.51.100.1 255.255.255.0\n ip nat outside\n"
POOL = ("ip nat pool P 198.51.100.8 198.51.100.15 netmask 255.255.255.248\n"
        "ip nat inside source list 1 pool P overload\naccess-list 1 permit 10.1.0.0 0.0.255.255\n")
UP = '[[traffic]]\nname = "up"\nfrom = ["r:Gi0/0"]\nto = ["r:Gi0/1"]\n'
DOWN = '[[traffic]]\nname = "down"\nfrom = ["r:Gi0/1"]\nto = ["r:Gi0/0"]\n'


def metered(section: str, *directions: str) -> str:
    return section + "".join(f" ip flow monitor M {one}\n" for one in directions)


def imported(folder: Path, inside: str, outside: str, rules: str = POOL, traffic: str = UP) -> Imported:
    return made(folder, REPORT + DEVICE + COLLECTOR + traffic, r_cfg=RECORD + inside + outside + rules)


def told(found: Imported) -> list[Finding]:
    return [one for one in found.report.findings if one.topic is Topic.NAT]


def test_packets_that_are_metered_before_the_translation_are_carried_over(tmp_path: Path) -> None:
    (one,) = told(imported(tmp_path, metered(INSIDE, "input"), OUTSIDE))
    assert one.grade is Grade.NOTE and one.place.text == "ip nat inside source list 1 pool P overload"
    assert one.says == ("NAT: packets of access list 1 have the sources 198.51.100.8-198.51.100.15 outside. 'up' is metered "
                        "before the translation alone, at r GigabitEthernet0/0 ingress: its records have the sources with "
                        "which the packets come in")


def test_packets_that_are_metered_after_the_translation_have_other_sources(tmp_path: Path) -> None:
    (one,) = told(imported(tmp_path, INSIDE, metered(OUTSIDE, "output")))
    assert one.grade is Grade.NOT_CARRIED_OVER
    assert "'up' is metered after the translation, at r GigabitEthernet0/1 egress: records made after it have the sources " \
           "of the outside" in one.says


def test_packets_that_are_metered_on_both_sides_are_told_with_both(tmp_path: Path) -> None:
    """The packet stays in one class, so that the audit refutes: a class for each side would be counted once on each."""
    found = imported(tmp_path, metered(INSIDE, "input"), metered(OUTSIDE, "output"))
    (one,) = told(found)
    assert one.grade is Grade.NOT_CARRIED_OVER
    assert "at r GigabitEthernet0/1 egress, and before it at r GigabitEthernet0/0 ingress:" in one.says
    (traffic,) = found.pairs[0].classes
    assert [[(each.interface, each.direction.value) for each in path] for path in traffic.paths] == [
        [("GigabitEthernet0/0", "ingress"), ("GigabitEthernet0/1", "egress")]]


@pytest.mark.parametrize("inside, outside, grade, words", [
    (INSIDE, metered(OUTSIDE, "input"), Grade.PREMISE, "metered before the translation alone, at r GigabitEthernet0/1 ingress: "
     "its records have these destinations"),
    (metered(INSIDE, "output"), OUTSIDE, Grade.NOT_CARRIED_OVER, "at r GigabitEthernet0/0 egress: records made after it have "
     "the destinations of the inside")])
def test_packets_that_come_back(tmp_path: Path, inside: str, outside: str, grade: Grade, words: str) -> None:
    (one,) = told(imported(tmp_path, inside, outside, traffic=DOWN))
    assert one.grade is grade and words in one.says
    assert one.says.startswith("NAT: packets that come back to access list 1 have the destinations 198.51.100.8-198.51.100.15")


@pytest.mark.parametrize("rule, says", [
    ("ip nat inside source static 10.1.0.5 198.51.100.5", "packets of 10.1.0.5 have the sources 198.51.100.5 outside"),
    ("ip nat inside source static 10.1.0.5 198.51.100.5 extendable", "packets of 10.1.0.5 have the sources 198.51.100.5 outside"),
    ("ip nat inside source static network 10.1.2.0 198.51.100.0 /28",
     "packets of 10.1.2.0/28 have the sources 198.51.100.0/28 outside"),
    ("ip nat inside source static tcp 10.1.0.5 80 198.51.100.5 8080 extendable",
     "packets of 10.1.0.5, tcp port 80 have the sources 198.51.100.5, port 8080 outside"),
    ("ip nat inside source static udp 10.1.0.5 53 interface GigabitEthernet0/1 53",
     "packets of 10.1.0.5, udp port 53 have the sources the address of GigabitEthernet0/1, port 53 outside"),
    ("ip nat inside source list NAT interface GigabitEthernet0/1 overload",
     "packets of access list NAT have the sources the address of GigabitEthernet0/1 outside"),
    ("ip nat inside source route-map RM pool Q", "packets of route map RM have the sources pool Q outside"),
    ("ip nat pool P prefix-length 29\n address 198.51.100.8 198.51.100.9\n address 198.51.100.12 198.51.100.12\n"
     "ip nat inside source list 1 pool P", "have the sources 198.51.100.8-198.51.100.9, 198.51.100.12 outside")])
def test_rules_of_a_cisco_router(tmp_path: Path, rule: str, says: str) -> None:
    (one,) = told(imported(tmp_path, metered(INSIDE, "input"), OUTSIDE, rule + "\n"))
    assert says in one.says and one.grade is Grade.NOTE and one.place.text == rule.split("\n")[-1]


@pytest.mark.parametrize("rules", [
    "ip nat outside source static 203.0.113.9 10.9.0.9\n" + POOL, "ip nat inside destination list 1 pool P\n" + POOL,
    "ip nat source list 1 pool P\n", "ip nat inside source frobnicate\n"])
def test_rules_that_are_not_read_are_reported_as_a_whole(tmp_path: Path, rules: str) -> None:
    (one,) = told(imported(tmp_path, metered(INSIDE, "input"), OUTSIDE, rules))
    assert one.grade is Grade.NOT_CARRIED_OVER and "whether one packet is counted on both sides" in one.says


def test_a_translation_without_an_outside_is_reported_as_a_whole(tmp_path: Path) -> None:
    (one,) = told(imported(tmp_path, metered(INSIDE, "input"), OUTSIDE.replace(" ip nat outside\n", "")))
    assert one.grade is Grade.NOT_CARRIED_OVER


def test_rules_that_a_no_line_takes_out_are_none(tmp_path: Path) -> None:
    assert not told(imported(tmp_path, metered(INSIDE, "input").replace(" ip nat inside\n", ""),
                             OUTSIDE.replace(" ip nat outside\n", ""), "no ip nat inside source list 1 pool P\n"))


def test_traffic_that_passes_by_the_translation(tmp_path: Path) -> None:
    third = "interface GigabitEthernet0/2\n ip address 10.7.0.1 255.255.0.0\n"
    (one,) = told(imported(tmp_path, metered(INSIDE, "input"), OUTSIDE + third, traffic=UP.replace("Gi0/1", "Gi0/2")))
    assert one.grade is Grade.NOTE and "no declared path leads from an inside to an outside interface" in one.says


def test_a_translation_of_vyos_beyond_an_interface_that_is_not_metered() -> None:
    text = (SAMPLES / "vyos" / "gw-1.set").read_text()
    inside = text.replace("set system flow-accounting interface 'eth1'\n", "")
    assert text != inside and finding(read_text("vyos", inside), "nat source rule 10").grade is Grade.NOTE
    egress = inside + "set system flow-accounting enable-egress\n"
    assert finding(read_text("vyos", egress), "nat source rule 10").grade is Grade.NOT_CARRIED_OVER


def test_addresses_of_a_translation_of_vyos() -> None:
    text = (SAMPLES / "vyos" / "gw-1.set").read_text().replace("'masquerade'", "'198.51.100.8-198.51.100.9'")
    says = finding(read_text("vyos", text), "nat source rule 10").says
    assert "have the source 198.51.100.8-198.51.100.9, and packets that come back have 198.51.100.8-198.51.100.9" in says


JUNOS = """set interfaces ge-0/0/0 unit 0 family inet address 10.1.0.1/16
set interfaces ge-0/0/0 unit 0 family inet sampling input
set interfaces ge-0/0/1 unit 0 family inet address 198.51.100.1/24
set chassis fpc 0 sampling-instance S
set services flow-monitoring version-ipfix template T ipv4-template
set forwarding-options sampling instance S input rate 1
set forwarding-options sampling instance S family inet output flow-server 192.0.2.10 port 4739
set forwarding-options sampling instance S family inet output flow-server 192.0.2.10 version-ipfix template T
set security zones security-zone trust interfaces ge-0/0/0.0
set security zones security-zone untrust interfaces ge-0/0/1.0
set security nat source pool P address 198.51.100.8/29
set security nat source rule-set RS from zone trust
set security nat source rule-set RS to zone untrust
set security nat source rule-set RS rule R match source-address 10.1.0.0/16
set security nat source rule-set RS rule R then source-nat pool P
"""
JUNOS_UP = '[[traffic]]\nname = "up"\nfrom = ["r:ge-0/0/0.0"]\nto = ["r:ge-0/0/1.0"]\n'


def junos(folder: Path, text: str) -> Finding:
    (one,) = told(made(folder, REPORT + DEVICE + COLLECTOR + JUNOS_UP, r_cfg=text))
    return one


def test_source_translation_of_junos(tmp_path: Path) -> None:
    one = junos(tmp_path, JUNOS)
    assert one.grade is Grade.PREMISE and one.place.text.endswith("then source-nat pool P")
    assert one.says.startswith("NAT: packets of 10.1.0.0/16 have the sources 198.51.100.8/29 outside. 'up' is taken to be metered "
                               "before the translation alone, at r ge-0/0/0.0 ingress")


def test_source_translation_of_junos_by_interfaces(tmp_path: Path) -> None:
    text = JUNOS.replace("from zone trust", "from interface ge-0/0/0.0").replace("to zone untrust", "to interface ge-0/0/1.0")
    one = junos(tmp_path, text.replace("then source-nat pool P", "then source-nat interface"))
    assert one.grade is Grade.PREMISE and "have the sources the address of the interface outside" in one.says


def test_packets_of_junos_that_are_metered_after_the_translation(tmp_path: Path) -> None:
    text = JUNOS.replace("ge-0/0/0 unit 0 family inet sampling input", "ge-0/0/1 unit 0 family inet sampling output")
    assert junos(tmp_path, text).grade is Grade.NOT_CARRIED_OVER


@pytest.mark.parametrize("line", ["set security nat static rule-set X rule Y then static-nat prefix 10.1.0.5/32",
                                  "set security nat destination pool D address 10.1.0.5/32",
                                  "set services nat rule N term t then translated source-pool P"])
def test_other_translation_of_junos_is_reported_as_a_whole(tmp_path: Path, line: str) -> None:
    one = junos(tmp_path, JUNOS + line + "\n")
    assert one.grade is Grade.NOT_CARRIED_OVER and "whether one packet is counted on both sides" in one.says


def test_a_rule_that_turns_translation_off(tmp_path: Path) -> None:
    one = junos(tmp_path, JUNOS.replace("then source-nat pool P", "then source-nat off"))
    assert one.grade is Grade.NOT_CARRIED_OVER  # there is no rule that translates, and what the others do is not read
