"""Addresses with ports, as projects and configurations write them."""
from __future__ import annotations

import ipaddress
import re
from typing import NamedTuple

TRANSPORTS = ("udp", "tcp", "sctp")
SPELLED = re.compile(r"^(?:\[([^\]]+)\]|([^:\[\]]+)|([0-9A-Fa-f:.]*:[0-9A-Fa-f:.]*:[0-9A-Fa-f:.]*))(?::(\d{1,5}))?"
                     r"(?:/(udp|tcp|sctp))?$")


class Endpoint(NamedTuple):
    """An address or host name or `*`, a port (0: none given), and a transport ("": any)."""

    address: str
    port: int
    transport: str = ""

    def __str__(self) -> str:
        host = f"[{self.address}]" if ":" in self.address else self.address
        return f"{host}:{self.port}" if self.port else host


def normal(address: str) -> str:
    """Returns an address in one spelling; a host name as it is, in lower case."""
    try:
        return str(ipaddress.ip_address(address))
    except ValueError:
        return address.lower()


def endpoint_of(text: str) -> Endpoint | None:
    """Returns what `ADDRESS:PORT`, `[ADDRESS]:PORT`, `*:PORT` or `ADDRESS` spells, perhaps with `/udp`, `/tcp` or `/sctp`."""
    match = SPELLED.match(text.strip())
    if match is None:
        return None
    port = int(match[4] or 0)
    if port > 65535:
        return None
    return Endpoint(normal(match[1] or match[2] or match[3]), port, match[5] or "")
