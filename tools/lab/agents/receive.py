#!/usr/bin/env python3
"""receive.py FIRST LAST EVERY ADDRESS..: receives UDP at the ports FIRST to LAST of addresses until it is terminated.

Each packet whose number (the first four octets of its payload) is a multiple of EVERY is answered with 100 octets; with
EVERY 0 none is. Prints `ready`, and how many were received and answered, whenever none has come for a while and at SIGTERM.
"""
from __future__ import annotations

import os
import selectors
import signal
import socket
import sys
from typing import NoReturn

SO_RCVBUFFORCE = 33  # which the module socket does not name
IDLE = 0.05  # seconds
received = answered = 0


def report() -> None:
    """Prints the counts, without a buffer that a signal could find half written."""
    os.write(1, f"received {received} answered {answered}\n".encode("ascii"))


def end(*_: object) -> NoReturn:
    """Prints the counts and ends."""
    report()
    sys.exit(0)


def listener(address: str, port: int) -> socket.socket:
    """Returns a socket that receives at an address and port."""
    found = socket.socket(socket.AF_INET6 if ":" in address else socket.AF_INET, socket.SOCK_DGRAM)
    found.setsockopt(socket.SOL_SOCKET, SO_RCVBUFFORCE, 4 << 20)
    if ":" in address:
        found.setsockopt(socket.IPPROTO_IPV6, socket.IPV6_V6ONLY, 1)
    found.bind((address, port))
    return found


def main(first: int, last: int, every: int, addresses: list[str]) -> None:
    """Receives until it is terminated."""
    global received, answered
    signal.signal(signal.SIGTERM, end)
    waiting = selectors.DefaultSelector()
    for address in addresses:
        for port in range(first, last + 1):
            one = listener(address, port)
            waiting.register(one, selectors.EVENT_READ, one)
    print("ready", flush=True)
    is_reported = True
    while True:
        found = waiting.select(None if is_reported else IDLE)
        if not found:
            report()
        is_reported = not found
        for key, _ in found:
            octets, sender = key.data.recvfrom(65535)
            received += 1
            if every and len(octets) >= 4 and int.from_bytes(octets[:4], "big") % every == 0:
                key.data.sendto(bytes(100), sender)
                answered += 1


if __name__ == "__main__":
    main(int(sys.argv[1]), int(sys.argv[2]), int(sys.argv[3]), sys.argv[4:])
