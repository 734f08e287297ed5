"""Statements that bear on metering and are not carried over: each is reported."""
from __future__ import annotations

import subprocess
from pathlib import Path

import pytest

from expected import SAMPLES, finding, read_text
from once_tools.model import Grade, Unusable
from once_tools.source import Source
from test_meters import program, udp_packets, write_capture
from test_mutations import FILES, heard, sources

PROBE = "pcap_interface: eth0\nplugins: nfprobe[a]\nnfprobe_receiver: 192.0.2.10:4739\n"
# Kinds whose text may be pasted twice; of daemons a second command line or a later line of a key is reported.
PASTED = ("softflowd", "openvswitch", "junos", "cisco-xr", "vyos", "arista-eos", "mikrotik", "nokia-sros", "huawei")


def changed(kind: str, before: str, after: str) -> str:
    """Returns a sample's text with one change."""
    text = (SAMPLES / FILES[kind]).read_text()
    assert before in text, before
    return text.replace(before, after, 1)


@pytest.mark.parametrize("kind", PASTED)
def test_a_text_that_was_pasted_twice_is_read_as_once(kind: str) -> None:
    first, *others = sources(kind)
    assert heard(kind, [Source(first.name, f"{first.text}\n{first.text}"), *others])[0] == heard(kind, [first, *others])[0]


@pytest.mark.parametrize("text,grade", [
    ("option filtered", Grade.NOT_CARRIED_OVER), ("option filterd", Grade.NOT_CARRIED_OVER), ("option bgpattr", None)])
def test_options_of_a_monitor_map(text: str, grade: Grade | None) -> None:
    device = read_text("cisco-xr", f"flow exporter-map E\n destination 192.0.2.10\n transport udp 4739\nflow monitor-map M\n"
                                   f" record ipv4\n exporter E\n {text}\n")
    assert [one.grade for one in device.findings if one.place.text == text] == ([grade] if grade else [])


@pytest.mark.parametrize("text,grade", [
    ("analyze-gre-payload", Grade.NOT_CARRIED_OVER), ("export-mode manual", Grade.PREMISE), ("export-mode automatic", None)])
def test_settings_of_cflowd(text: str, grade: Grade | None) -> None:
    device = read_text("nokia-sros", f"/configure cflowd no shutdown\n/configure cflowd {text}\n")
    assert [one.grade for one in device.findings if text in one.place.text] == ([grade] if grade else [])


def test_interfaces_of_one_name_in_two_services() -> None:
    text = "/configure service vprn 1 interface lan address 10.1.0.1/24\n/configure service vprn 2 interface lan address 10.2.0.1/24\n"
    assert finding(read_text("nokia-sros", text), "also has an interface lan").grade is Grade.NOT_CARRIED_OVER


def test_a_service_that_is_printed_twice_has_one_interface() -> None:
    text = "/configure service vprn 1 customer 1 create interface lan create\n/configure service vprn 1 interface lan port 1/1/1\n"
    assert read_text("nokia-sros", text + "/configure router Base interface a\n/configure router interface a\n").findings == []


@pytest.mark.parametrize("line", ["set nat66 source rule 1 translation address 2001:db8::/64", "set nat cgnat rule 10 source pool a"])
def test_translation_of_other_kinds(line: str) -> None:
    device = read_text("vyos", (SAMPLES / FILES["vyos"]).read_text() + line + "\n")
    assert [one.grade for one in device.findings if one.place.text == line] == [Grade.NOT_CARRIED_OVER]


def test_routing_in_hardware() -> None:
    line = "/interface ethernet switch set 0 l3-hw-offloading=yes"
    device = read_text("mikrotik", (SAMPLES / FILES["mikrotik"]).read_text() + line + "\n")
    assert finding(device, "switch chip").grade is Grade.NOT_CARRIED_OVER


def test_settings_of_debian_without_an_interface_are_refused() -> None:
    with pytest.raises(Unusable, match="no interface"):
        read_text("softflowd", 'options="-n 192.0.2.10:4739"\n')


def test_a_host_with_a_version_of_its_own() -> None:
    text = changed("huawei", "ip netstream export host 192.0.2.10 4739", "ip netstream export host 192.0.2.10 4739 version 9")
    assert finding(read_text("huawei", text), "`version 9`").grade is Grade.NOT_CARRIED_OVER


def test_a_collector_of_ipv6_alone() -> None:
    device = read_text("nfacctd", "plugins: print[p]\naggregate[p]: src_host\nnfacctd_ipv6_only: true\n")
    assert finding(device, "over IPv4").grade is Grade.NOT_CARRIED_OVER


def test_addresses_outside_of_the_networks_are_counted_as_zero(tmp_path: Path) -> None:
    """The running pmacctd counts sources outside of 10.0.0.0/8 as 0.0.0.0."""
    write_capture(tmp_path / "a.pcap", udp_packets(1))
    (tmp_path / "networks.lst").write_text("10.0.0.0/8\n")
    lines = f"networks_file: {tmp_path}/networks.lst\nnetworks_file_filter: true\n"
    (tmp_path / "run.conf").write_text(f"pcap_savefile: {tmp_path}/a.pcap\nplugins: print[p]\naggregate[p]: src_host\n{lines}"
                                       f"print_output: csv\nprint_output_file: {tmp_path}/counted.csv\ndaemonize: false\n")
    subprocess.run([program("pmacctd"), "-f", str(tmp_path / "run.conf")], capture_output=True, timeout=60, cwd=tmp_path)
    found = {line.split(",")[0] for line in (tmp_path / "counted.csv").read_text().splitlines()[1:] if ":" not in line}
    assert "0.0.0.0" in found and {one.split(".")[0] for one in found} == {"0", "10"}
    for kind, text in (("pmacctd", PROBE), ("nfacctd", "plugins: print[p]\naggregate[p]: src_host\n")):
        assert finding(read_text(kind, text + lines), "counted as 0.0.0.0").grade is Grade.NOT_CARRIED_OVER
