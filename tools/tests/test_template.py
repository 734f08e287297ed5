"""`once-import template`: templates of exporters, compared with what their manuals and captures say."""
from __future__ import annotations

import argparse
import struct
from pathlib import Path

import pytest

from captures import ethernet, ipv4, pcap, row, udp
from once_tools.commands import template as command


def printed(tmp_path: Path, payloads: list[bytes], capsys: pytest.CaptureFixture[str], status: int = 0) -> str:
    path = tmp_path / "export.pcap"
    path.write_bytes(pcap([ethernet(ipv4(udp(one))) for one in payloads]))
    parser = argparse.ArgumentParser()
    command.add_parser(parser.add_subparsers())
    arguments = parser.parse_args(["template", str(path)])
    assert arguments.run(arguments) == status
    captured = capsys.readouterr()
    return captured.err if status else captured.out


def message(*sets: tuple[int, bytes], version: int = 10) -> bytes:
    body = b"".join(struct.pack(">HH", number, 4 + len(octets)) + octets for number, octets in sets)
    if version == 9:
        return struct.pack(">HHIIII", 9, 1, 0, 0, 0, 7) + body
    return struct.pack(">HHIII", 10, 16 + len(body), 0, 0, 7) + body


def template(number: int, *fields: tuple[int, int]) -> bytes:
    return struct.pack(">HH", number, len(fields)) + b"".join(struct.pack(">HH", *field) for field in fields)


def test_softflowd_has_narrow_counters(tmp_path: Path, capsys: pytest.CaptureFixture[str]) -> None:
    text = printed(tmp_path, row("stream-of-softflowd"), capsys)
    assert "octetDeltaCount has 4 octets" in text and "4,294,967,296" in text and "(618)" in text
    assert "sourceIPv4Address                      8  length 4" in text
    assert '"filterMatch": {"ieName": "ipVersion", "value": "4"}' in text
    assert '"filterMatch": {"ieName": "ipVersion", "value": "6"}' in text


def test_pmacctd_has_8_octets(tmp_path: Path, capsys: pytest.CaptureFixture[str]) -> None:
    text = printed(tmp_path, row("stream-of-pmacctd"), capsys)
    assert "octetDeltaCount                        1  length 8" in text and "618" not in text


def test_sampling_in_options(tmp_path: Path, capsys: pytest.CaptureFixture[str]) -> None:
    options = struct.pack(">HHH", 300, 3, 1) + struct.pack(">HHHHHH", 143, 4, 305, 4, 306, 4)
    data = struct.pack(">III", 1, 1, 99)
    text = printed(tmp_path, [message((3, options), (300, data))], capsys)
    assert "samples (samplingPacketSpace 99)" in text and "scope" in text
    text = printed(tmp_path, [message((3, options), (300, struct.pack(">III", 1, 1, 0)))], capsys)
    assert "every packet is metered" in text


def test_directions_and_prefixes(tmp_path: Path, capsys: pytest.CaptureFixture[str]) -> None:
    fields = template(256, (44, 4), (9, 1), (61, 1), (1, 8), (85, 8), (195, 1))
    record = bytes(4) + b"\x18" + b"%c" + bytes(17)
    one, two = (record.replace(b"%c", bytes([direction])) for direction in (0, 1))
    text = printed(tmp_path, [message((2, fields), (256, one + two))], capsys)
    assert "flowDirection is ingress and egress" in text and "sourceIPv4Prefix (its length is in the records)" in text
    assert "octetTotalCount is there beside octetDeltaCount" in text and "there is no packetDeltaCount (114)" in text
    assert "element 195 is not ipClassOfService" in text
    text = printed(tmp_path, [message((2, fields), (256, one))], capsys)
    assert "flowDirection is always ingress" in text


def test_totals_alone(tmp_path: Path, capsys: pytest.CaptureFixture[str]) -> None:
    text = printed(tmp_path, [message((2, template(256, (8, 4), (85, 8), (2, 8))))], capsys)
    assert "octetTotalCount counts since the flow began" in text and "(111)" in text


def test_netflow_9(tmp_path: Path, capsys: pytest.CaptureFixture[str]) -> None:
    options = struct.pack(">HHH", 257, 4, 8) + struct.pack(">HHHHHH", 1, 4, 34, 4, 35, 1)
    data = struct.pack(">IIB", 1, 100, 2)
    text = printed(tmp_path, [message((0, template(256, (8, 4), (12, 4), (1, 4), (2, 4))), (1, options), (257, data),
                                      version=9)], capsys)
    assert "NetFlow 9, domain 7, template 256" in text and "octetDeltaCount has 4 octets" in text
    assert "the exporter samples (samplingInterval 100)" in text and "(611)" in text


def test_reverse_elements_and_enterprises(tmp_path: Path, capsys: pytest.CaptureFixture[str]) -> None:
    fields = struct.pack(">HH", 256, 3) + struct.pack(">HH", 1, 8) + struct.pack(">HHI", 0x8001, 8, 29305)
    fields += struct.pack(">HHI", 0x8005, 65535, 9)
    text = printed(tmp_path, [message((2, fields))], capsys)
    assert "reverse octetDeltaCount" in text and "RFC 5103" in text and "element 5 of enterprise 9" in text
    assert "length variable" in text


def test_captures_without_templates(tmp_path: Path, capsys: pytest.CaptureFixture[str]) -> None:
    assert "none of its 1 frames has a template" in printed(tmp_path, [b"hello"], capsys, 2)
