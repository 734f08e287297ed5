"""Packets put together from their fragments (RFC 791, RFC 8200)."""
from __future__ import annotations

from dataclasses import dataclass, field, replace

from once_tools.streams.packets import Packet

MOST_WAITING = 65_536
MOST_PACKET = 65_535
Key = tuple[str, str, int, int]


@dataclass
class Fragments:
    """Fragments that wait for the rest of their packet."""

    waiting: dict[Key, dict[int, Packet]] = field(default_factory=dict)
    forgotten: int = 0

    def whole(self, packet: Packet) -> Packet | None:
        """Returns the whole packet that this fragment completes, or None where others are still missing."""
        key = (packet.source, packet.destination, packet.protocol, packet.identification)
        parts = self.waiting.setdefault(key, {})
        parts[packet.offset] = packet
        payload = _joined(parts)
        if payload is None:
            if len(self.waiting) > MOST_WAITING:
                self.waiting.pop(next(iter(self.waiting)))
                self.forgotten += 1
            return None
        del self.waiting[key]
        first = parts[0]
        return replace(first, payload=payload, frame=packet.frame, offset=0, more_fragments=False)

    def incomplete(self) -> list[list[Packet]]:
        """Returns the fragments of each packet that never became whole, in the order of the capture."""
        return [list(parts.values()) for parts in self.waiting.values()]


def _joined(parts: dict[int, Packet]) -> bytes | None:
    octets = b""
    while len(octets) in parts and len(octets) <= MOST_PACKET:
        part = parts[len(octets)]
        octets += part.payload
        if not part.more_fragments:
            return octets
        if not part.payload:
            return None
    return None
