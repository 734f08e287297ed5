#!/usr/bin/env python3
"""replay.py ADDRESS PORT STREAM..: sends the IPFIX messages of streams to a collector on this host, each as a datagram.

It sends the next message when the collector's socket has nothing that waits, so that none is lost to a full buffer.
"""
from __future__ import annotations

import socket
import sys
import time
from pathlib import Path
from typing import Iterator

SECONDS = 120.0


def messages(octets: bytes) -> Iterator[bytes]:
    """Yields the messages of a stream (RFC 7011, section 3.1: the length follows the version)."""
    at = 0
    while at < len(octets):
        length = int.from_bytes(octets[at + 2:at + 4], "big")
        yield octets[at:at + length]
        at += length


def waits(port: int) -> bool:
    """Returns whether a datagram waits at a port of this host."""
    for line in Path("/proc/net/udp").read_text(encoding="ascii").splitlines()[1:]:
        words = line.split()
        if words[1].endswith(f":{port:04X}") and words[4].split(":")[1] != "00000000":
            return True
    return False


def main(address: str, port: int, streams: list[str]) -> None:
    """Sends all messages of all streams."""
    deadline = time.monotonic() + SECONDS
    with socket.socket(socket.AF_INET, socket.SOCK_DGRAM) as out:
        for stream in streams:
            for message in messages(Path(stream).read_bytes()):
                out.sendto(message, (address, port))
                while waits(port):
                    if time.monotonic() > deadline:
                        sys.exit("the collector has not read all messages")
                    time.sleep(0.001)


if __name__ == "__main__":
    main(sys.argv[1], int(sys.argv[2]), sys.argv[3:])
