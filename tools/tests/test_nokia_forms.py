"""Nokia SR OS: the classic form, MD-CLI with braces and MD-CLI with paths, and what samples packets in each."""
from __future__ import annotations

import ipaddress
from typing import Any

import pytest

from expected import SAMPLES, finding, lines, read_text, shape
from once_tools.load import detected
from once_tools.model import Device, Grade
from once_tools.report import line_of
from once_tools.source import Source

CLASSIC, MD, FLAT = ((SAMPLES / "nokia-sros" / name).read_text() for name in ("pe-1.cfg", "pe-1.curly", "pe-1.flat"))
FORMS = {"classic": CLASSIC, "md": MD, "flat": FLAT}
WAY = "/configure cflowd rate 1\n/configure cflowd collector 192.0.2.10:4739 version 10\n/configure cflowd collector " \
      "192.0.2.10:4739 no shutdown\n/configure cflowd no shutdown\n"
UNICAST = "cflowd-parameters sampling unicast type"


def ends(text: str) -> dict[str, Any]:
    """Returns the interfaces with their addresses and ports."""
    return {one.name: (one.addresses, one.aliases) for one in read_text("nokia-sros", text).interfaces}


def metered(text: str) -> list[tuple[str, list[str], str]]:
    return [(one.name, one.interfaces, one.direction.value) for one in read_text("nokia-sros", text).points]


@pytest.mark.parametrize("form", ["md", "flat"])
def test_all_forms_of_a_configuration_give_equal_devices(form: str) -> None:
    assert shape(read_text("nokia-sros", FORMS[form])) == shape(read_text("nokia-sros", CLASSIC))
    assert ends(FORMS[form]) == ends(CLASSIC) == {"to-core-1": (["172.31.0.9/31"], ["1/1/2"]),
                                                  "customer-g": (["10.8.0.1/16"], ["1/1/1"])}
    assert read_text("nokia-sros", FORMS[form]).hostname == "pe-1"


@pytest.mark.parametrize("form", FORMS)
def test_the_kind_is_recognized(form: str) -> None:
    assert detected([Source("x", FORMS[form])]) == "nokia-sros"


def test_names_with_spaces_are_whole() -> None:
    text = CLASSIC.replace('"customer-g"', '"to core"').replace('"to-core-1"', '"to core 2"')
    assert list(ends(text)) == ["to core 2", "to core"] and metered(text)[0][1] == ["to core"]


def test_an_admin_state_that_is_not_given_is_a_premise() -> None:
    for text in (MD.replace("        admin-state enable\n        sample", "        sample"),
                 MD.replace("            admin-state enable\n", "")):
        assert text != MD
        device = read_text("nokia-sros", text)
        assert finding(device, "has no admin-state").grade is Grade.PREMISE and device.points
    assert not read_text("nokia-sros", MD.replace("admin-state enable\n        sample", "admin-state disable\n        sample")).points


def test_rates_of_profiles() -> None:
    text = MD.replace("direction ingress-only\n", "direction ingress-only\n                    sample-profile 2\n")
    device = read_text("nokia-sros", text)
    assert finding(device, "no rate is set for profile 2, so one packet out of 1000").grade is Grade.NOT_CARRIED_OVER
    assert device.points[0].sampling == {"sampRandOutOfN": {"size": 1, "population": 1000}}
    text = text.replace("        collector 192.0.2.10", "        sample-profile 2 {\n            sample-rate 50\n        }\n        collector "
                        "192.0.2.10")
    assert "one packet out of 50 is sampled" in "".join(lines(read_text("nokia-sros", text)))


FILTER, MD_FILTER = ((SAMPLES / "nokia-sros" / name).read_text() for name in ("pe-2.cfg", "pe-2.curly"))


def times(device: Device, source: str, destination: str, **others: str) -> int:
    """Returns in how many selection processes of the points a packet is."""
    packet = {"ipVersion": "6" if ":" in source else "4", "protocolIdentifier": "6", "sourceTransportPort": "1024",
              "destinationTransportPort": "80", **others}
    version = packet["ipVersion"]
    ends = {f"sourceIPv{version}": source, f"destinationIPv{version}": destination}

    def holds(element: str, value: str) -> bool:
        for kind in ("Prefix", "Address"):
            if element.endswith(kind):
                end = ends.get(element.removesuffix(kind))
                return end is not None and ipaddress.ip_address(end) in ipaddress.ip_network(value)
        return packet[element] == value

    return sum(all(holds(element, value) for element, value in one.match.items())
               for point in device.points for one in point.selections)


# Entries in order: 10 takes what goes to 10.9.0.0/16 unsampled; 20 has no action and is not active; 30 samples customers.
PACKETS = [("10.1.2.3", "198.51.100.1", 1), ("192.168.7.7", "10.8.255.255", 1), ("10.1.2.3", "10.9.0.1", 0),
           ("172.16.0.1", "198.51.100.1", 0), ("10.255.255.255", "10.10.0.0", 1), ("2001:db8::1", "2001:db8::2", 0)]


@pytest.mark.parametrize("text", [FILTER, MD_FILTER], ids=["classic", "md"])
def test_a_filter_chooses_the_packets_that_are_sampled(text: str) -> None:
    device = read_text("nokia-sros", text)
    assert [times(device, source, destination) for source, destination, _ in PACKETS] == [count for _, _, count in PACKETS]
    assert not lines(device, Grade.NOT_CARRIED_OVER)
    assert finding(device, "chooses the packets of IPv4 that are sampled").grade is Grade.NOTE
    assert finding(device, "no filter of IPv6 is at a").grade is Grade.NOTE
    assert finding(device, "is not active").grade is Grade.NOTE


@pytest.mark.parametrize("text", [FILTER, MD_FILTER], ids=["classic", "md"])
def test_an_entry_with_an_action_is_active(text: str) -> None:
    """Entry 20 then takes UDP to port 53 of 10.1.2.0/24, and its packets are still in one process."""
    before = "                filter-sample\n            exit\n        exit\n    exit\n    cflowd" if text == FILTER else \
        "                filter-sample true\n                match {\n                    protocol udp"
    after = before.replace("filter-sample\n", "filter-sample\n                action forward\n").replace(
        "filter-sample true\n", "filter-sample true\n                action {\n                    accept\n                }\n")
    assert before in text
    device = read_text("nokia-sros", text.replace(before, after).replace("protocol udp", "protocol 17"))
    assert not lines(device, Grade.NOT_CARRIED_OVER) or "selection processes" in "".join(lines(device, Grade.NOT_CARRIED_OVER))
    assert times(device, "192.168.7.7", "198.51.100.1") == 1


def test_entries_that_keep_packets_from_being_sampled() -> None:
    text = FILTER.replace("type acl", "type interface").replace(
        "                    dst-ip 10.9.0.0/16\n                exit\n",
        "                    dst-ip 10.9.0.0/16\n                exit\n                interface-disable-sample\n")
    device = read_text("nokia-sros", text)
    wanted = [1, 1, 0, 1, 1, 1]  # all but what goes to 10.9.0.0/16, and all of IPv6
    assert [times(device, source, destination) for source, destination, _ in PACKETS] == wanted
    assert not lines(device, Grade.NOT_CARRIED_OVER)
    assert sum("is at no interface at which this bears on" in line for line in lines(device, Grade.NOTE)) == 2  # filter-sample


@pytest.mark.parametrize("change, words", [
    (("dst-ip 10.9.0.0/16", "fragment true"), "`fragment true` is a condition"), (("action forward", "action nat"), "action `nat`"),
    (("                filter-sample\n                action forward", "                filter-sample\n                action drop"),
     "whether a packet that is dropped is sampled"), (('ip-prefix-list "customers"\n', 'ip-prefix-list "others"\n'), "prefix-list others"),
    (("default-action forward\n", "embed-filter 7\n"), "`embed-filter 7` is not known"), (("filter ip 10", "filter ip 11"),
     "filter 11, which is at a, is not in this configuration")])
def test_filters_that_are_not_read_are_reported(change: tuple[str, str], words: str) -> None:
    assert change[0] in FILTER
    device = read_text("nokia-sros", FILTER.replace(*change))
    assert words in "".join(lines(device, Grade.NOT_CARRIED_OVER))
    assert times(device, "10.1.2.3", "10.9.0.1") == 1  # all packets are metered instead


def test_a_filter_in_the_other_direction_samples_nothing() -> None:
    device = read_text("nokia-sros", FILTER.replace("            ingress\n", "            egress\n"))
    assert not device.points and finding(device, "no filter of IPv4 is at a in this direction")


def test_both_directions_have_filters_of_their_own() -> None:
    device = read_text("nokia-sros", FILTER.replace("direction ingress-only", "direction both"))
    assert metered(FILTER) == [("cflowd ingress-only", ["a"], "ingress")]
    assert [(one.name, one.direction.value) for one in device.points] == [("cflowd ingress-only", "ingress")]
    assert finding(device, "counts twice").grade is Grade.WARNING


def test_interfaces_with_different_filters_are_different_points() -> None:
    other = '        interface "b"\n            cflowd-parameters\n                sampling unicast type interface direction ' \
            "ingress-only\n            exit\n        exit\n"
    text = FILTER.replace("    router Base\n", "    router Base\n" + other)
    assert metered(text) == [("cflowd ingress-only", ["b"], "ingress"), ("cflowd ingress-only 2", ["a"], "ingress")]


def test_filters_of_saps_and_of_ipv6() -> None:
    text = f"{WAY}/configure filter ipv6-filter 6 entry 1 filter-sample\n/configure filter ipv6-filter 6 entry 1 action accept\n" \
           "/configure filter ipv6-filter 6 entry 1 match src-ip 2001:db8::/32\n" \
           f"/configure service ies 1 interface a {UNICAST} acl direction ingress-only\n" \
           "/configure service ies 1 interface a sap 1/1/1:10 create ingress filter ipv6 6\n"
    device = read_text("nokia-sros", text)
    assert [times(device, "2001:db8::1", "::1"), times(device, "2001:db9::1", "::1"), times(device, "10.0.0.1", "10.0.0.2")] == [1, 0, 0]
    assert device.interfaces[0].aliases == ["1/1/1:10"]


@pytest.mark.parametrize("line", ["direction egress-only", "type acl"])
def test_two_values_of_one_interface(line: str) -> None:
    text = MD.replace("direction ingress-only\n", f"direction ingress-only\n                    {line}\n")
    assert finding(read_text("nokia-sros", text), "which of them holds is not known").grade is Grade.NOT_CARRIED_OVER


@pytest.mark.parametrize("line", ["direction sideways", "frobnicate 3", "type"])
def test_unknown_words_of_sampling(line: str) -> None:
    text = MD.replace("direction ingress-only\n", f"{line}\n")
    assert any(line.split()[0] in line_of(one) and one.grade is Grade.NOT_CARRIED_OVER
               for one in read_text("nokia-sros", text).findings)


def test_interfaces_of_a_service_that_is_shut_are_left_out() -> None:
    text = f"{WAY}/configure service vprn 1 customer 1 create interface a create {UNICAST} interface direction both\n"
    assert metered(text) == [("cflowd both", ["a"], "both")]
    for line in ("/configure service vprn 1 shutdown", "/configure service vprn 1 customer 1 create shutdown"):
        assert not metered(f"{text}{line}\n") and finding(read_text("nokia-sros", f"{text}{line}\n"), "a is left out")
    assert metered(f"{text}/configure service vprn 1 bgp shutdown\n") and metered(f"{text}/configure service vprn 1 no shutdown\n")


def test_a_service_of_md_cli_without_an_admin_state() -> None:
    text = MD.replace('    router "Base" {\n', '    service {\n        vprn "1" {\n', 1).replace("    system {", "    }\n    system {")
    assert finding(read_text("nokia-sros", text), "`service vprn 1` has no admin-state").grade is Grade.PREMISE
    enabled = text.replace('vprn "1" {\n', 'vprn "1" {\n            admin-state enable\n')
    assert metered(enabled) == metered(text) and "vprn 1" not in "".join(lines(read_text("nokia-sros", enabled)))
    assert not metered(enabled.replace('vprn "1" {\n            admin-state enable', 'vprn "1" {\n            admin-state disable'))


def test_addresses_of_both_versions() -> None:
    text = MD.replace("            ipv4 {\n                primary {\n                    address 10.8.0.1\n", "            ipv6 {\n"
                      "                address 2001:db8::1 {\n                    prefix-length 64\n                }\n            }\n"
                      "            ipv4 {\n                primary {\n                    address 10.8.0.1\n")
    assert ends(text)["customer-g"][0] == ["2001:db8::1/64", "10.8.0.1/16"]
    text = CLASSIC.replace("            address 10.8.0.1/16\n", "            address 10.8.0.1/16\n            secondary 10.9.0.1/24\n"
                           "            ipv6\n                address 2001:db8::1/64\n            exit\n")
    assert ends(text)["customer-g"][0] == ["10.8.0.1/16", "10.9.0.1/24", "2001:db8::1/64"]


@pytest.mark.parametrize("line, name", [
    ("router interface a port 1", "a"), ("router Base interface a port 1", "a"), ("router Base x interface a port 1", ""),
    ("service vprn 1 customer 1 create interface a create port 1", "a"), ("service ies 1 name n customer 1 create interface a", "a"),
    ("service vprn 1 subscriber-interface s group-interface g", ""), ("router interface", ""), ("router isis interface a", ""),
    ("router Base isis 0 interface a shutdown", ""), ("router ospf area 0.0.0.0 interface a", ""),
    ("service vprn 1 ospf area 0.0.0.0 interface a shutdown", ""), ("router management interface a port 1", "a")])
def test_which_interface_a_statement_is_about(line: str, name: str) -> None:
    device = read_text("nokia-sros", f"{WAY}/configure {line}\n")
    assert [one.name for one in device.interfaces] == ([name] if name else [])


def test_a_protocol_that_is_shut_at_an_interface_does_not_shut_it() -> None:
    text = f"{WAY}/configure router interface a {UNICAST} interface direction ingress-only\n"
    assert metered(f"{text}/configure router isis interface a shutdown\n") == metered(text) != []


def test_an_interface_of_a_vprn_is_in_its_vrf() -> None:
    text = "/configure service vprn 7 interface a port 1/1/1\n/configure service ies 8 interface b port 1/1/2\n" \
           "/configure router interface c port 1/1/3\n"
    assert {one.name: one.vrf for one in read_text("nokia-sros", text).interfaces} == {"a": "vprn 7", "b": "", "c": ""}


@pytest.mark.parametrize("line, count", [("no analyze-gre-payload", 0), ("no cache-size", 0), ("no rate", 1), ("no collector 192.0.2.10:4739", 1)])
def test_settings_of_cflowd_with_no(line: str, count: int) -> None:
    device = read_text("nokia-sros", f"{WAY}/configure cflowd {line}\n")
    assert [one.grade for one in device.findings if one.place.text.endswith(line)] == [Grade.NOT_CARRIED_OVER] * count


def test_an_interface_that_is_opened_again() -> None:
    text = f"{WAY}/configure router interface a {UNICAST} interface direction ingress-only\n/configure router interface a shutdown\n"
    assert not metered(text) and metered(f"{text}/configure router interface a no shutdown\n")
