"""Captures for tests, written octet by octet."""
from __future__ import annotations

import ipaddress
import struct
from pathlib import Path
from typing import Iterable

ROWS = Path(__file__).resolve().parents[2] / "tests" / "rows"
EXPORTER, COLLECTOR = "192.0.2.1", "192.0.2.10"


def messages_of(stream: bytes) -> list[bytes]:
    """Returns the IPFIX messages of a stream."""
    found = []
    while stream:
        length = int.from_bytes(stream[2:4], "big")
        found.append(stream[:length])
        stream = stream[length:]
    return found


def row(name: str) -> list[bytes]:
    """Returns the messages of a stream in tests/rows."""
    return messages_of((ROWS / name / "stream.ipfix").read_bytes())


def udp(payload: bytes, source_port: int = 50000, port: int = 4739) -> bytes:
    return struct.pack(">HHHH", source_port, port, 8 + len(payload), 0) + payload


def tcp(data: bytes, sequence: int, flags: int = 0x10, source_port: int = 50000, port: int = 4739) -> bytes:
    return struct.pack(">HHIIBBHHH", source_port, port, sequence % (1 << 32), 1, 0x50, flags, 1000, 0, 0) + data


def sctp(chunks: bytes, source_port: int = 50000, port: int = 4739, tag: int = 7) -> bytes:
    return struct.pack(">HHII", source_port, port, tag, 0) + chunks


def data_chunk(number: int, data: bytes, flags: int = 3, stream: int = 0) -> bytes:
    length = 16 + len(data)
    return struct.pack(">BBHIHHI", 0, flags, length, number % (1 << 32), stream, 0, 0) + data + bytes(-length % 4)


def ipv4(payload: bytes, protocol: int = 17, source: str = EXPORTER, to: str = COLLECTOR, offset: int = 0,
         more: bool = False, number: int = 1) -> bytes:
    flags = offset // 8 | (0x2000 if more else 0)
    return struct.pack(">BBHHHBBH4s4s", 0x45, 0, 20 + len(payload), number, flags, 64, protocol, 0,
                       ipaddress.IPv4Address(source).packed, ipaddress.IPv4Address(to).packed) + payload


def ipv6(payload: bytes, protocol: int = 17, source: str = "2001:db8::1", to: str = "2001:db8::a") -> bytes:
    return struct.pack(">IHBB16s16s", 6 << 28, len(payload), protocol, 64, ipaddress.IPv6Address(source).packed,
                       ipaddress.IPv6Address(to).packed) + payload


def ethernet(packet: bytes, tags: Iterable[int] = ()) -> bytes:
    kind = b"\x86\xdd" if packet[0] >> 4 == 6 else b"\x08\x00"
    vlans = b"".join(struct.pack(">HH", tag, 100) for tag in tags)
    frame = bytes(12) + vlans + kind + packet
    return frame + bytes(max(0, 60 - len(frame)))


def pcap(frames: Iterable[bytes], link: int = 1, order: str = "<", snap: int = 262144) -> bytes:
    octets = struct.pack(order + "IHHiIII", 0xA1B2C3D4, 2, 4, 0, 0, snap, link)
    for frame in frames:
        octets += struct.pack(order + "IIII", 0, 0, min(len(frame), snap), len(frame)) + frame[:snap]
    return octets


def pcapng(frames: Iterable[bytes], link: int = 1, order: str = "<") -> bytes:
    def block(kind: int, body: bytes) -> bytes:
        body += bytes(-len(body) % 4)
        return struct.pack(order + "II", kind, 12 + len(body)) + body + struct.pack(order + "I", 12 + len(body))
    octets = block(0x0A0D0D0A, struct.pack(order + "IHHq", 0x1A2B3C4D, 1, 0, -1))
    octets += block(1, struct.pack(order + "HHI", link, 0, 0))
    for frame in frames:
        octets += block(6, struct.pack(order + "IIIII", 0, 0, 0, len(frame), len(frame)) + frame)
    return octets
