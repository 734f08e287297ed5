"""What the meters themselves count, beside what the readers say of them."""
from __future__ import annotations

import os
import re
import shutil
import struct
import subprocess
from pathlib import Path

import pytest

from expected import read_text
from libpcap import Packet
from once_tools import boxes
from once_tools.boxes import Box
from once_tools.model import Device
from test_pcap_filter import holding, packets

ETHERNET = b"\x02\0\0\0\0\x01\x02\0\0\0\0\x02"


def program(name: str) -> str:
    """Returns the path of a program; skips the test if it is missing, and fails it in CI."""
    found = shutil.which(name) or shutil.which(name, path="/usr/sbin:/usr/local/sbin")
    if found is None:
        if os.environ.get("CI") == "true":
            pytest.fail(f"{name} is missing")
        pytest.skip(f"{name} is missing")
    return found


def write_capture(path: Path, wanted: list[Packet]) -> None:
    """Writes packets as a capture of Ethernet, with their own lengths."""
    with path.open("wb") as file:
        file.write(struct.pack("<IHHiIII", 0xA1B2C3D4, 2, 4, 0, 0, 65535, 1))
        for second, packet in enumerate(wanted):
            kind = b"\x08\x00" if ":" not in packet.source else b"\x86\xdd"
            frame = ETHERNET + kind + packet.octets()
            file.write(struct.pack("<IIII", 1_700_000_000 + second, 0, len(frame), len(frame)) + frame)


def regions(device: Device) -> dict[str, list[Box]]:
    """Returns the packets that come to each cache of a device."""
    found: dict[str, list[Box]] = {}
    for point in device.points:
        for one in point.selections:
            region = {key.replace("Prefix", "Address"): value for key, value in one.match.items()}
            found.setdefault(one.cache, []).append(boxes.read_region(region))
    return found


def udp_packets(seed: int) -> list[Packet]:
    """Packets of UDP, which no meter takes for fragments or for other headers."""
    return [Packet(one.source, one.destination, 17, one.source_port, one.destination_port)
            for one in packets(seed)[:200]]


FILTERS = ["", "ip", "src net 10.0.0.0/8", "net 10.11.0.0/16", "not net 10.0.0.0/8",
           "udp dst port 53 or src host 10.0.0.1",
           "net 2001:db8::/32 or net 192.168", "src net 10.0.0.0/8 and not src net 10.1.0.0/16"]


@pytest.mark.parametrize("expression", FILTERS)
def test_softflowd_tracks_the_packets_that_its_document_selects(tmp_path: Path, expression: str) -> None:
    wanted = udp_packets(FILTERS.index(expression))
    write_capture(tmp_path / "a.pcap", wanted)
    arguments = ["-r", str(tmp_path / "a.pcap"), "-n", "127.0.0.1:9", "-v", "10", "-m", "100000"]
    done = subprocess.run([program("softflowd"), *arguments, *expression.split()], capture_output=True, text=True,
                          timeout=30, cwd=tmp_path)
    counted = re.search(r"Packets processed: (\d+)", done.stdout + done.stderr)
    assert counted, done.stderr
    device = read_text("softflowd", f"softflowd -i eth0 -n 127.0.0.1:9 -v 10 {expression}\n")
    selected = [sum(holding(region, packet) for region in regions(device).values()) for packet in wanted]
    assert set(selected) <= {0, 1} and sum(selected) == int(counted[1])


def test_pmacctd_counts_the_packets_that_its_document_selects(tmp_path: Path) -> None:
    """The filter of the daemon, and the last of two lines for one key, as the plugin `print` shows them."""
    expression = "net 10.0.0.0/8 and not src net 10.1.0.0/16"
    wanted = udp_packets(1)
    write_capture(tmp_path / "a.pcap", wanted)
    settings = (f"pcap_savefile: {tmp_path}/a.pcap\nplugins: nfprobe[a], print[p]\naggregate[p]: src_host\nprint_refresh_time: 60\n"
                f"print_output_file: {tmp_path}/counted.csv\nprint_output: csv\nnfprobe_receiver: 127.0.0.1:9\n"
                f"pcap_filter: icmp\npcap_filter[a]: {expression}\ndaemonize: false\n")
    (tmp_path / "pmacctd.conf").write_text(settings)
    subprocess.run([program("pmacctd"), "-f", str(tmp_path / "pmacctd.conf")], capture_output=True, timeout=60,
                   cwd=tmp_path)
    rows = [line.split(",") for line in (tmp_path / "counted.csv").read_text().splitlines()[1:]]
    device = read_text("pmacctd", settings)
    found = regions(device)
    plain: dict[str, int] = {}
    for packet in wanted:
        if any(holding(region, packet) for region in found.values()):
            plain[packet.source] = plain.get(packet.source, 0) + 1
    assert {row[0]: int(row[1]) for row in rows} == plain and plain
