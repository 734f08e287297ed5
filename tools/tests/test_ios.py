"""Small configurations of Cisco IOS, each with what must come out of it."""
from __future__ import annotations

import random
import re

import pytest

from expected import SAMPLES
from once_tools.model import Device, Grade, Topic
from once_tools.readers import READERS, reader_of
from once_tools.report import Report
from once_tools.source import Source
from test_mutations import heard, mutate

RECORD = """flow record R
 match ipv4 source address
 match ipv4 destination address
 collect counter bytes long
 collect counter packets long
flow exporter E
 destination 192.0.2.10
 transport udp 4739
 export-protocol ipfix
flow monitor M
 record R
 exporter E
"""


def read(text: str) -> Device:
    return READERS["cisco-ios"].read("r", [Source("r.cfg", text)], {})


def lines(text: str) -> list[str]:
    return Report(read(text).findings).lines()


def findings(text: str, grade: Grade) -> list[str]:
    return [one.place.text for one in read(text).findings if one.grade is grade]


def interface(*statements: str) -> str:
    return RECORD + "interface GigabitEthernet0/0\n" + "".join(f" {one}\n" for one in statements)


def test_a_plain_monitor() -> None:
    device = read(interface("ip flow monitor M input"))
    assert [(one.name, one.interfaces, one.direction.value) for one in device.points] == [
        ("M input", ["GigabitEthernet0/0"], "ingress")]
    assert [one.element for one in device.caches[0].fields if one.is_key] == ["sourceIPv4Address", "destinationIPv4Address"]
    assert device.exporters[0].destinations[0].port == 4739
    assert [one.grade for one in device.findings] == [Grade.NOTE]


def test_unknown_monitor_is_wrong_with_the_nearest_name() -> None:
    text = interface("ip flow monitor M1 input")
    assert "wrong r.cfg:14: 'ip flow monitor M1 input': there is no flow monitor M1; write 'M'" in lines(text)


def test_unknown_record_and_exporter_are_wrong() -> None:
    text = interface("ip flow monitor M input").replace("\n record R\n", "\n record RR\n").replace("\n exporter E\n", "\n exporter F\n")
    assert findings(text, Grade.WRONG) == ["record RR", "exporter F"]


@pytest.mark.parametrize("counter", ["bytes", "packets"])
def test_a_missing_counter_is_not_carried_over(counter: str) -> None:
    text = interface("ip flow monitor M input").replace(f" collect counter {counter} long\n", "")
    found = [one for one in read(text).findings if one.grade is Grade.NOT_CARRIED_OVER]
    assert [(one.number, one.topic) for one in found] == [(114, Topic.COUNTERS)]


def test_collected_axis_is_no_key() -> None:
    text = interface("ip flow monitor M input").replace(" match ipv4 source address\n", "").replace(
        " collect counter bytes long\n", " collect counter bytes long\n collect ipv4 source address\n")
    fields = {one.element: one.is_key for one in read(text).caches[0].fields}
    assert fields["sourceIPv4Address"] is False


def test_sampler_of_all_packets_is_a_note() -> None:
    text = interface("ip flow monitor M sampler S input") + "sampler S\n mode random 1 out-of 1\n"
    assert findings(text, Grade.NOT_CARRIED_OVER) == []
    assert read(text).points[0].sampling is None


@pytest.mark.parametrize("mode, selector", [("random", "sampRandOutOfN"), ("deterministic", "sampCountBased")])
def test_sampler(mode: str, selector: str) -> None:
    text = interface("ip flow monitor M sampler S input") + f"sampler S\n mode {mode} 1 out-of 100\n"
    found = [one for one in read(text).findings if one.topic is Topic.SAMPLER]
    assert [(one.number, one.exporters) for one in found] == [(108, ("E",))]
    assert selector in (read(text).points[0].sampling or {})


def test_sampler_without_a_section_is_not_carried_over() -> None:
    assert findings(interface("ip flow monitor M sampler S input"), Grade.NOT_CARRIED_OVER) == [
        "ip flow monitor M sampler S input"]


def test_monitor_without_exporter_meters_and_sends_nowhere() -> None:
    device = read(interface("ip flow monitor M input").replace("\n exporter E\n", "\n"))
    assert device.caches[0].exporters == [] and len(device.points) == 1
    assert any("no exporter" in one.says for one in device.findings)


def test_one_interface_in_two_sections() -> None:
    device = read(interface("ip flow monitor M input") + "interface GigabitEthernet0/0\n ip flow monitor M output\n")
    assert len(device.interfaces) == 1
    assert [one.name for one in device.points] == ["M input", "M output"]


def test_class_of_service_in_part_is_left_out() -> None:
    text = interface("ip flow monitor M input").replace(" match ipv4 source address\n", " match ipv4 dscp\n")
    assert "ipClassOfService" not in [one.element for one in read(text).caches[0].fields]
    assert any("'match ipv4 dscp'" in line and "class of service" in line for line in lines(text))


def test_two_monitors_on_one_interface_are_two_points() -> None:
    text = interface("ip flow monitor M input", "ip flow monitor N input") + "flow monitor N\n record R\n exporter E\n"
    assert [one.name for one in read(text).points] == ["M input", "N input"]


@pytest.mark.parametrize("line, section", [
    (" frobnicate 3", "flow record R"), (" match frobnicate", "flow record R"), (" collect frobnicate", "flow record R"),
    (" frobnicate", "flow exporter E"), (" export-protocol netflow-v7", "flow exporter E"),
    (" transport udp 99999", "flow exporter E"), (" frobnicate", "flow monitor M"), (" cache type odd", "flow monitor M"),
    (" collect counter bytes longg", "flow record R"), (" match ipv4 toss", "flow record R"),
])
def test_unknown_statements_are_reported(line: str, section: str) -> None:
    text = interface("ip flow monitor M input").replace(f"{section}\n", f"{section}\n{line}\n")
    assert line.strip() in findings(text, Grade.NOT_CARRIED_OVER)


@pytest.mark.parametrize("line", ["ip flow frobnicate", "ip flow monitor M", "ip flow monitor M inputt",
                                  "flow monitor M input", "datalink flow monitor M input", "ip flow ingresss",
                                  "ip flow monitor M multicast input"])
def test_unknown_statements_of_interfaces_are_reported(line: str) -> None:
    assert line in findings(interface("ip flow monitor M input", line), Grade.NOT_CARRIED_OVER)


def test_unknown_section_of_flows_is_reported() -> None:
    assert "flow frobnicate X" in findings(interface("ip flow monitor M input") + "flow frobnicate X\n", Grade.NOT_CARRIED_OVER)


def test_three_hundred_subinterfaces_stay_one_point_of_the_reader() -> None:
    text = RECORD + "".join(f"interface Gi0/0.{one}\n ip flow monitor M input\n" for one in range(300))
    assert len(read(text).points[0].interfaces) == 300


def test_names_of_interfaces() -> None:
    device = read(RECORD + "interface GigabitEthernet 0/1.100 point-to-point\n ip flow monitor M input\n")
    assert device.interfaces[0].name == "GigabitEthernet0/1.100"
    assert "Gi0/1.100" in device.interfaces[0].aliases
    assert device.interfaces[0].parent == "GigabitEthernet0/1"


def test_range_and_template() -> None:
    text = RECORD + "template T\n ip flow monitor M input\ninterface range GigabitEthernet0/1 - 3\n source template T\n"
    assert read(text).points[0].interfaces == [f"GigabitEthernet0/{one}" for one in (1, 2, 3)]


def test_vlan_configuration() -> None:
    device = read(RECORD + "vlan configuration 10-11,20\n ip flow monitor M input\n")
    assert device.points[0].interfaces == ["Vlan10", "Vlan11", "Vlan20"]
    assert any(one.grade is Grade.PREMISE for one in device.findings)


@pytest.mark.parametrize("line, members", [
    ("switchport access vlan 10", ["Vlan10"]), ("switchport trunk allowed vlan 10-11", ["Vlan10", "Vlan11"]),
    ("switchport trunk allowed vlan except 10", ["Vlan11", "Vlan20"]), ("switchport trunk allowed vlan none", []),
    ("switchport mode trunk", ["Vlan10", "Vlan11", "Vlan20"]), ("channel-group 3 mode active", ["Port-channel3"])])
def test_members_of_vlans_and_bundles(line: str, members: list[str]) -> None:
    text = RECORD + "".join(f"interface Vlan{one}\n ip flow monitor M input\n" for one in (10, 11, 20))
    device = read(text + f"interface GigabitEthernet1/0/1\n {line}\n")
    assert [one.name for one in device.interfaces if "GigabitEthernet1/0/1" in one.members] == members


def test_banner_is_no_configuration() -> None:
    text = interface("ip flow monitor M input") + "banner motd ^C\ninterface GigabitEthernet0/9\n ip flow ingress\n^C\n"
    assert len(read(text).interfaces) == 1


def test_shut_interface_is_left_out() -> None:
    device = read(interface("shutdown", "ip flow monitor M input"))
    assert device.points == [] and device.caches == []


def test_predefined_record_has_short_counters() -> None:
    text = interface("ip flow monitor M input").replace("\n record R\n", "\n record netflow ipv4 original-input\n")
    found = [one for one in read(text).findings if one.grade is Grade.PREMISE]
    assert found[0].number == 110
    assert {one.octets for one in read(text).caches[0].fields if not one.is_key} == {4}


def test_permanent_cache_is_a_premise() -> None:
    text = interface("ip flow monitor M input").replace("\n record R\n", "\n record R\n cache type permanent\n")
    assert read(text).caches[0].kind == "permanent"
    assert "cache type permanent" in findings(text, Grade.PREMISE)


def test_parallel_destinations_of_classic_netflow() -> None:
    text = "ip flow-export destination 192.0.2.1 2055\nip flow-export destination 192.0.2.2 2055\n" \
           "interface Gi0/0\n ip flow ingress\n ip flow egress\n"
    device = read(text)
    assert [(one.name, one.mode, len(one.destinations)) for one in device.exporters] == [("ip flow-export", "parallel", 2)]
    assert [one.name for one in device.points] == ["ip flow ingress", "ip flow egress"]


def test_the_order_of_sections_does_not_matter() -> None:
    text = (SAMPLES / "cisco-ios-xe" / "edge-1.cfg").read_text()
    parts = text.split("\n!\n")
    turned = "\n!\n".join([*reversed(parts[:-1]), parts[-1]])
    plain, changed = read(text), read(turned)
    assert {one.name: (sorted(one.interfaces), one.direction) for one in plain.points} == {
        one.name: (sorted(one.interfaces), one.direction) for one in changed.points}
    assert {one.name: ([each.element for each in one.fields], one.exporters) for one in plain.caches} == {
        one.name: ([each.element for each in one.fields], one.exporters) for one in changed.caches}


def test_comments_and_ends_of_lines_change_nothing() -> None:
    text = interface("ip flow monitor M input")
    plain, changed = read(text), read("! a comment\n" + text.replace("\n", "\r\n"))
    assert [one.interfaces for one in plain.points] == [one.interfaces for one in changed.points]
    assert plain.points[0].place.line + 1 == changed.points[0].place.line


def test_kinds_and_detection() -> None:
    assert reader_of("ios-xe") is READERS["cisco-ios"]
    reader = READERS["cisco-ios"]
    assert reader.detect(RECORD) > 90
    assert reader.detect("flow monitor-map M\n record ipv4\n") < 20
    assert reader.detect("plugins: nfprobe\n") == 0


def test_no_change_of_older_forms_is_passed_over_in_silence() -> None:
    text = (SAMPLES / "cisco-ios-xe" / "netflow-original.cfg").read_text()
    usual, chance, silent = heard("cisco-ios", [Source("r.cfg", text)]), random.Random(1), []
    for _ in range(300):
        changed, what, place = mutate(text, chance)
        line = text.split("\n")[place]
        if heard("cisco-ios", [Source("r.cfg", changed)]) == usual and changed.split() != text.split() and what not in (
                "double", "swap") and not re.fullmatch(r"\s*(!.*|hostname .*|end)?", line):
            silent.append((what, line))
    assert silent == []


@pytest.mark.parametrize("statement", [
    "service-policy type performance-monitor input P", "et-analytics enable", "mls netflow sampling", "ip flow mon M output",
    "IP FLOW MONITOR M output", "no ip flow monitor M input", "service instance 10 ethernet\n  ip flow monitor M input"])
def test_what_meters_at_an_interface_in_another_spelling_is_reported(statement: str) -> None:
    found = findings(interface("ip flow monitor M input", statement), Grade.NOT_CARRIED_OVER)
    assert found == [statement.split("\n")[-1].strip()]


@pytest.mark.parametrize("section", [
    "wireless profile policy P\n ipv4 flow monitor M input", "int gi0/0/7\n ip flow monitor M input",
    "bridge-domain 10\n ip flow monitor M input", "template T\n ip flow monitor M input", "mls sampling packet-based 64",
    "control-plane\n ip flow monitor M input", "ipv6 flow monitor M input"])
def test_monitors_in_sections_that_are_not_read_are_reported(section: str) -> None:
    found = findings(interface("ip flow monitor M input") + section + "\n", Grade.NOT_CARRIED_OVER)
    assert found == [section.split("\n")[-1].strip()]


@pytest.mark.parametrize("section", [
    'event manager applet X\n action 1.0 cli command "ip flow monitor M input"', "alias exec f show flow monitor M",
    "ip nat log translations flow-export v9 udp destination 192.0.2.1 9995",
    "parameter-map type inspect-global\n log flow-export v9 udp destination 192.0.2.1 9995"])
def test_lines_that_meter_nothing_are_no_fault(section: str) -> None:
    assert findings(interface("ip flow monitor M input") + section + "\n", Grade.NOT_CARRIED_OVER) == []


def test_sections_of_one_name_are_one() -> None:
    second = "flow exporter F\n destination 192.0.2.11\n transport udp 4739\nflow monitor M\n exporter F\n"
    device = read(interface("ip flow monitor M input") + second)
    assert device.caches[0].exporters == ["E", "F"]
    assert [one.destinations[0].address for one in device.exporters] == ["192.0.2.10", "192.0.2.11"]


def test_lines_of_a_record_may_be_indented_further() -> None:
    text = interface("ip flow monitor M input").replace("\n match ipv4 destination", "\n  match ipv4 destination")
    assert [one.element for one in read(text).caches[0].fields if one.is_key] == [
        "sourceIPv4Address", "destinationIPv4Address"]


def test_a_banner_without_an_end_hides_nothing() -> None:
    assert [one.name for one in read("banner motd ^C\nwelcome\n" + interface("ip flow monitor M input")).points] == ["M input"]


def test_route_cache_flow_covers_subinterfaces() -> None:
    text = ("ip flow-export destination 192.0.2.10 2055\ninterface FastEthernet0/0\n ip route-cache flow\n"
            "interface FastEthernet0/0.10\n ip address 10.0.0.1 255.0.0.0\n")
    assert [one.interfaces for one in read(text).points] == [["FastEthernet0/0", "FastEthernet0/0.10"]]
    assert "ip route-cache flow" in findings(text, Grade.PREMISE)


def test_a_monitor_beside_subinterfaces_is_a_premise() -> None:
    text = interface("ip flow monitor M input") + "interface GigabitEthernet0/0.10\n ip flow monitor M input\n"
    assert findings(text, Grade.PREMISE) == ["ip flow monitor M input"]
    assert findings(interface("ip flow monitor M input"), Grade.PREMISE) == []
