"""`once-import streams`: the streams of captures, compared with the octets that exporters sent and with `once collect`."""
from __future__ import annotations

import random
import struct
import subprocess
from pathlib import Path

import pytest

from captures import (COLLECTOR, ROWS, data_chunk, ethernet, ipv4, ipv6, messages_of, pcap, pcapng, row, sctp, tcp, udp)
from once_tools.import_main import main
from once_tools.model import Grade
from once_tools.streams.writing import Stream, read_capture, write_streams
from programs import need

SOFTFLOWD, PMACCTD = "stream-of-softflowd", "stream-of-pmacctd"


def streams_of(tmp_path: Path, capture: bytes, ports: tuple[int, ...] = ()) -> tuple[list[Stream], list[str]]:
    path = tmp_path / "export.pcap"
    path.write_bytes(capture)
    streams, findings = read_capture(path, ports)
    return streams, [f"{one.grade.value}: {one.says}" for one in findings]


def collect(tmp_path: Path, name: str, stream: bytes) -> str:
    path = tmp_path / "stream.ipfix"
    path.write_bytes(stream)
    once = need("once")
    return subprocess.run([once, "collect", str(ROWS / name / "network.json"), str(path)], capture_output=True,
                          text=True, timeout=60).stdout


def in_udp(messages: list[bytes], **ends: str) -> list[bytes]:
    return [ethernet(ipv4(udp(one), **ends)) for one in messages]  # type: ignore[arg-type]


@pytest.mark.parametrize("name", [SOFTFLOWD, PMACCTD])
def test_stream_of_an_exporter_is_what_it_sent(tmp_path: Path, name: str) -> None:
    streams, _ = streams_of(tmp_path, pcap(in_udp(row(name))))
    assert [bytes(one.part.octets) for one in streams] == [(ROWS / name / "stream.ipfix").read_bytes()]
    assert collect(tmp_path, name, bytes(streams[0].part.octets)) == (ROWS / name / "stdout").read_text()


def test_narrow_counters_are_reported(tmp_path: Path) -> None:
    _, findings = streams_of(tmp_path, pcap(in_udp(row(SOFTFLOWD))))
    assert any(line.startswith("warning") and "octetDeltaCount of 4 octets" in line and "618" in line for line in findings)


@pytest.mark.parametrize("made", [
    lambda frames: pcap(frames, order=">"),
    pcapng,
    lambda frames: pcapng(frames, order=">"),
    lambda frames: pcap([frame[14:] for frame in frames], link=101),
    lambda frames: pcap([bytes(14) + frame[12:] for frame in frames], link=113),
    lambda frames: pcap([frame[12:14] + bytes(18) + frame[14:] for frame in frames], link=276),
    lambda frames: pcap([bytes(12) + b"\x88\xa8\0\1\x81\0\0\2" + frame[12:] for frame in frames]),
])
def test_forms_of_captures(tmp_path: Path, made: object) -> None:
    streams, findings = streams_of(tmp_path, made(in_udp(row(PMACCTD))))  # type: ignore[operator]
    assert bytes(streams[0].part.octets) == b"".join(row(PMACCTD))
    assert not findings


def test_exporters_are_kept_apart(tmp_path: Path) -> None:
    frames = [frame for one in row(PMACCTD) for frame in (
        ethernet(ipv4(udp(one))), ethernet(ipv4(udp(one), source="192.0.2.2")), ethernet(ipv6(udp(one))),
        ethernet(ipv4(udp(one, source_port=50001))))]
    streams, findings = streams_of(tmp_path, pcap(frames))
    assert [stream.name for stream in streams] == [
        "192.0.2.1-50000-to-192.0.2.10-4739-udp.ipfix", "192.0.2.2-50000-to-192.0.2.10-4739-udp.ipfix",
        "2001_db8__1-50000-to-2001_db8__a-4739-udp.ipfix", "192.0.2.1-50001-to-192.0.2.10-4739-udp.ipfix"]
    assert all(bytes(stream.part.octets) == b"".join(row(PMACCTD)) for stream in streams)
    assert not findings


def test_messages_before_templates_are_left_out(tmp_path: Path) -> None:
    messages = row(PMACCTD)
    streams, findings = streams_of(tmp_path, pcap(in_udp(messages[1:])))
    has_templates = [b"\0\2" == one[16:18] for one in messages]
    assert has_templates[0] and findings and "templates come later or never" in findings[0]
    left = bytes(streams[0].part.octets) if streams else b""
    assert all(one[16:18] == b"\0\2" for one in messages_of(left)[:1])
    if left:
        assert collect(tmp_path, PMACCTD, left).startswith("keys")


def test_duplicates_are_left_out(tmp_path: Path) -> None:
    twice = [frame for frame in in_udp(row(PMACCTD)) for _ in range(2)]
    streams, findings = streams_of(tmp_path, pcap(twice))
    assert bytes(streams[0].part.octets) == b"".join(row(PMACCTD))
    assert len(findings) == 1 and findings[0].startswith("note") and "came before" in findings[0]


def test_gaps_are_those_of_collect(tmp_path: Path) -> None:
    messages = row(PMACCTD)
    assert len(messages) >= 4
    streams, findings = streams_of(tmp_path, pcap(in_udp(messages[:1] + messages[2:])))
    assert "\ngaps 1\n" in collect(tmp_path, PMACCTD, bytes(streams[0].part.octets))
    assert len(findings) == 1 and findings[0].startswith("warning") and "1 gap in the sequence numbers" in findings[0]


def test_netflow_is_reported(tmp_path: Path) -> None:
    five = struct.pack(">HH", 5, 2) + bytes(20 + 96)
    nine = struct.pack(">HHIIII", 9, 1, 0, 0, 0, 0) + struct.pack(">HHHH", 0, 12, 256, 1) + struct.pack(">HH", 1, 4)
    streams, findings = streams_of(tmp_path, pcap(in_udp([five, nine, nine])))
    assert not streams
    assert [line.split(" (frame")[0] for line in findings[:2]] == [
        "not carried over: 192.0.2.1:50000 to 192.0.2.10:4739 over UDP"] * 2
    assert "1 message of NetFlow 5 with 2 records" in findings[0] and "2 messages of NetFlow 9" in findings[1]
    assert findings[2].startswith("wrong")


def segments(octets: bytes, sizes: random.Random, start: int) -> list[tuple[int, bytes]]:
    found, place = [], 0
    while place < len(octets):
        size = sizes.randint(1, 700)
        found.append((start + place, octets[place:place + size]))
        place += size
    return found


def test_tcp_is_put_together(tmp_path: Path) -> None:
    octets, draw = b"".join(row(PMACCTD)), random.Random(793)
    start = (1 << 32) - 1000  # the sequence numbers wrap
    parts = segments(octets, draw, start + 1)
    parts += draw.sample(parts, 3)  # retransmissions
    for at in range(0, len(parts) - 1, 2):
        parts[at], parts[at + 1] = parts[at + 1], parts[at]
    frames = [ethernet(ipv4(tcp(b"", start, 2), 6))] + [ethernet(ipv4(tcp(data, at), 6)) for at, data in parts]
    streams, findings = streams_of(tmp_path, pcap(frames))
    assert bytes(streams[0].part.octets) == octets and streams[0].ends.transport == "tcp"
    assert not findings


def test_tcp_from_within_a_connection(tmp_path: Path) -> None:
    octets = b"".join(row(PMACCTD) + row(PMACCTD)[:1])
    cut = len(row(PMACCTD)[0]) // 2
    frames = [ethernet(ipv4(tcp(octets[at:at + 500], at), 6)) for at in range(cut, len(octets), 500)]
    streams, findings = streams_of(tmp_path, pcap(frames))
    assert any("octets (between messages)" in line for line in findings)
    assert bytes(streams[-1].part.octets).endswith(row(PMACCTD)[0])


def test_tcp_with_lost_segments(tmp_path: Path) -> None:
    octets = b"".join(row(PMACCTD))
    frames = [ethernet(ipv4(tcp(b"", 0, 2), 6))]
    frames += [ethernet(ipv4(tcp(octets[at:at + 200], 1 + at), 6)) for at in range(0, len(octets), 200) if at != 2000]
    streams, findings = streams_of(tmp_path, pcap(frames))
    kept = messages_of(bytes(streams[0].part.octets))
    begins = [sum(map(len, row(PMACCTD)[:at])) for at in range(len(row(PMACCTD)))]
    whole = [one for at, one in zip(begins, row(PMACCTD)) if at + len(one) <= 2000 or at >= 2200]
    assert kept == whole
    assert any(line.startswith("not carried over") and "missing in the capture" in line for line in findings)


def test_two_connections_of_the_same_ports(tmp_path: Path) -> None:
    octets, frames = b"".join(row(PMACCTD)), []
    for start in (100, 90000):
        frames.append(ethernet(ipv4(tcp(b"", start, 2), 6)))
        frames += [ethernet(ipv4(tcp(octets[at:at + 800], start + 1 + at), 6)) for at in range(0, len(octets), 800)]
        frames.append(ethernet(ipv4(tcp(b"", start + 1 + len(octets), 0x11), 6)))
    streams, findings = streams_of(tmp_path, pcap(frames))
    assert [bytes(one.part.octets) for one in streams] == [octets, octets]
    assert streams[1].name == "192.0.2.1-50000-to-192.0.2.10-4739-tcp-connection-2.ipfix" and not findings


def test_sctp_messages(tmp_path: Path) -> None:
    messages, chunks = row(PMACCTD), []
    number = (1 << 32) - 3
    for one in messages:
        for at in range(0, len(one), 300):
            flags = (2 if at == 0 else 0) | (1 if at + 300 >= len(one) else 0)
            chunks.append(data_chunk(number, one[at:at + 300], flags))
            number += 1
    frames = [ethernet(ipv4(sctp(chunk), 132)) for chunk in [*chunks[:5], chunks[2], *chunks[5:]]]
    streams, findings = streams_of(tmp_path, pcap(frames))
    assert bytes(streams[0].part.octets) == b"".join(messages) and not findings


def test_fragments_are_put_together(tmp_path: Path) -> None:
    frames = []
    for number, one in enumerate(row(PMACCTD)):
        octets = udp(one)
        pieces = [ethernet(ipv4(octets[at:at + 400], offset=at, more=at + 400 < len(octets), number=number))
                  for at in range(0, len(octets), 400)]
        frames += reversed(pieces)
    streams, findings = streams_of(tmp_path, pcap(frames))
    assert bytes(streams[0].part.octets) == b"".join(row(PMACCTD)) and not findings
    _, findings = streams_of(tmp_path, pcap(frames[1:]))
    assert any("IP fragments are not all in the capture" in line for line in findings)


def test_icmp_errors_are_no_exports(tmp_path: Path) -> None:
    messages = row(PMACCTD)
    frames = in_udp(messages)
    error = struct.pack(">BBHI", 3, 3, 0, 0) + ipv4(udp(messages[0]))
    frames.insert(1, ethernet(ipv4(error, 1, source=COLLECTOR, to="192.0.2.1")))
    frames.insert(3, ethernet(ipv4(error[:36], 1, source=COLLECTOR, to="192.0.2.1")))
    streams, findings = streams_of(tmp_path, pcap(frames))
    assert bytes(streams[0].part.octets) == b"".join(messages)
    assert len(findings) == 1 and findings[0].startswith("warning")
    assert "192.0.2.10 answers with 2 ICMP errors (frames 2, 4)" in findings[0]


def test_cut_frames_and_cut_files(tmp_path: Path) -> None:
    frames = in_udp(row(PMACCTD))
    streams, findings = streams_of(tmp_path, pcap(frames, snap=64))
    assert not streams and any("snap length" in line for line in findings)
    streams, findings = streams_of(tmp_path, pcap(frames)[:-5])
    assert bytes(streams[0].part.octets) == b"".join(row(PMACCTD)[:-1])
    assert any("the file ends within frame" in line for line in findings)


def test_a_template_defined_anew_begins_a_stream(tmp_path: Path) -> None:
    messages = row("stream-with-another-template-under-a-live-id")
    streams, findings = streams_of(tmp_path, pcap(in_udp(messages)))
    assert len(streams) == 2 and "part-2" in streams[1].name
    assert any("template is defined anew" in line for line in findings)
    name = "stream-with-another-template-under-a-live-id"
    assert [collect(tmp_path, name, bytes(one.part.octets)).split()[0] for one in streams] == ["keys", "keys"]


@pytest.mark.parametrize("name", ["stream-with-five-gaps", "stream-with-options-a-withdrawal-and-a-gap",
                                  "stream-of-two-messages", "stream-with-addresses-of-ipv6"])
def test_streams_that_collect_reads_stay_whole(tmp_path: Path, name: str) -> None:
    streams, findings = streams_of(tmp_path, pcap(in_udp(row(name))))
    wanted = (ROWS / name / "stdout").read_text()
    assert collect(tmp_path, name, bytes(streams[0].part.octets)) == wanted
    gaps = next(int(line.split()[1]) for line in wanted.split("\n") if line.startswith("gaps"))
    counted = [line for line in findings if "sequence number" in line]
    assert sum(int(line.split("): ")[1].split()[0]) for line in counted) == gaps


@pytest.mark.parametrize("octets, words", [
    (b"", "neither a pcap"), (b"\x1f\x8b\x08\0", "gunzip"), (b"\0\x0a\0\x10" + bytes(12), "is an IPFIX stream"),
    (pcap([])[:10], "file header"), (pcap([]) + struct.pack("<IIII", 0, 0, 1 << 30, 1 << 30), "damaged")])
def test_other_files(tmp_path: Path, octets: bytes, words: str, capsys: pytest.CaptureFixture[str]) -> None:
    path = tmp_path / "export.pcap"
    path.write_bytes(octets)
    assert main(["streams", str(path), "--out", str(tmp_path / "out")]) == 2
    assert words in capsys.readouterr().err and not (tmp_path / "out").exists()


def test_damaged_captures_never_fail(tmp_path: Path) -> None:
    octets = b"".join(row(PMACCTD))
    good = pcap(in_udp(row(PMACCTD)) + [ethernet(ipv4(tcp(octets[at:at + 900], at), 6)) for at in range(0, 4000, 900)]
                + [ethernet(ipv4(sctp(data_chunk(1, row(PMACCTD)[0])), 132))])
    draw, path = random.Random(42), tmp_path / "export.pcap"
    from once_tools.model import Unusable
    for _ in range(150):
        damaged = bytearray(good)
        for _ in range(draw.randint(1, 30)):
            damaged[draw.randrange(len(damaged))] = draw.choice((0, 1, 255, draw.randrange(256)))
        path.write_bytes(damaged[:draw.randint(0, len(damaged))] if draw.random() < 0.2 else damaged)
        try:
            _, findings = read_capture(path)
            assert all(isinstance(one.grade, Grade) for one in findings)
        except Unusable as error:
            assert error.finding.says


def test_all_streams_are_written_or_none(tmp_path: Path) -> None:
    streams, _ = streams_of(tmp_path, pcap(in_udp(row(PMACCTD))))
    write_streams(streams, tmp_path / "out")
    assert [one.name for one in (tmp_path / "out").iterdir()] == [streams[0].name]
    from once_tools.model import Unusable
    (tmp_path / "file").write_text("")
    with pytest.raises(Unusable):
        write_streams(streams, tmp_path / "file")


@pytest.mark.parametrize("name", [PMACCTD, "stream-with-options-a-withdrawal-and-a-gap", "stream-with-addresses-of-ipv6",
                                  "stream-with-five-gaps"])
def test_collect_reads_what_is_written_of_damaged_messages(tmp_path: Path, name: str) -> None:
    """What `once collect` refuses has been reported with the number of its refusal, and gaps are counted alike."""
    need("once")
    draw = random.Random(name)
    for _ in range(6):
        messages = [bytearray(one) for one in row(name)]
        for _ in range(draw.randint(1, 4)):
            damaged = draw.choice(messages)
            damaged[draw.randrange(len(damaged))] = draw.choice((0, 1, 255, draw.randrange(256)))
        if draw.random() < 0.3:
            draw.shuffle(messages)
        streams, findings = streams_of(tmp_path, pcap(in_udp([bytes(one) for one in messages])))
        answers = [collect(tmp_path, name, bytes(one.part.octets)) for one in streams]
        for answer in answers:
            if answer.startswith("refused"):
                assert any(f"({answer.split()[1]})" in line for line in findings), answer
        if len(answers) == 1 and answers[0].startswith("keys"):
            gaps = int(answers[0].split("\ngaps ")[1].split()[0])
            assert gaps == sum(int(line.split("): ")[1].split()[0]) for line in findings if "sequence number" in line)
