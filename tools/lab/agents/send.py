#!/usr/bin/env python3
"""send.py PLAN HOST GAP: sends the packets of a plan whose host is HOST, in order, with at least GAP seconds between two.

A sender that had to wait for a processor does not send faster to catch up: a burst would overflow packet sockets.

A plan is a JSON list of packets (lab/plan.py). They are written with their IP headers by a raw socket, so that each is
one packet of the length that the plan says: nothing is left to a card, and nothing is sent again. Prints how many were
sent.
"""
from __future__ import annotations

import json
import socket
import struct
import sys
import time
from pathlib import Path
from typing import Any


def checksum(octets: bytes) -> int:
    """Returns the checksum of RFC 1071."""
    padded = octets + b"\0" * (len(octets) % 2)
    total: int = sum(struct.unpack(f">{len(padded) // 2}H", padded))
    while total >> 16:
        total = (total & 0xFFFF) + (total >> 16)
    return ~total & 0xFFFF


def datagram(one: dict[str, Any], number: int, pseudo: bytes) -> bytes:
    """Returns the UDP datagram of a packet. Its payload begins with the packet's number."""
    body = struct.pack(">I", number) + bytes(max(0, one["payload"] - 4))
    length = 8 + len(body)
    head = struct.pack(">HHHH", one["source_port"], one["destination_port"], length, 0)
    check = checksum(pseudo + struct.pack(">IHBB", length, 0, 0, 17) + head + body) or 0xFFFF
    return head[:6] + struct.pack(">H", check) + body


def packet(one: dict[str, Any], number: int) -> bytes:
    """Returns a packet with its header."""
    family = socket.AF_INET6 if ":" in one["source"] else socket.AF_INET
    source, destination = (socket.inet_pton(family, one[end]) for end in ("source", "destination"))
    udp = datagram(one, number, source + destination)
    if family == socket.AF_INET6:
        return struct.pack(">IHBB", 6 << 28 | one["tos"] << 20, len(udp), 17, one["ttl"]) + source + destination + udp
    fragments = 0 if one["may_fragment"] else 0x4000
    head = struct.pack(">BBHHHBBH", 0x45, one["tos"], 20 + len(udp), number % 65535 + 1, fragments, one["ttl"], 17, 0)
    return head + source + destination + udp


def raw(version: int) -> socket.socket:
    """Returns a socket for packets with their headers."""
    found = socket.socket(socket.AF_INET if version == 4 else socket.AF_INET6, socket.SOCK_RAW, socket.IPPROTO_RAW)
    found.setsockopt(socket.SOL_SOCKET, socket.SO_SNDBUF, 4 << 20)
    return found


def main(plan: Path, host: str, gap: float) -> None:
    """Sends a host's packets of a plan."""
    packets = [(number, one) for number, one in enumerate(json.loads(plan.read_text(encoding="utf-8"))) if one["host"] == host]
    sockets = {version: raw(version) for version in {6 if ":" in one["source"] else 4 for _, one in packets}}
    for number, one in packets:
        out = sockets[6 if ":" in one["source"] else 4]
        out.sendto(packet(one, number), (one["destination"], 0))
        time.sleep(gap)
    print(len(packets), flush=True)


if __name__ == "__main__":
    main(Path(sys.argv[1]), sys.argv[2], float(sys.argv[3]))
