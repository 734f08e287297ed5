"""One direction of a TCP connection, as the octets that the receiver reads."""
from __future__ import annotations

import struct
from dataclasses import dataclass, field

CYCLE = 1 << 32
FIN, SYN, RST = 1, 2, 4
MOST_PENDING = 16 * 1024 * 1024


@dataclass(frozen=True)
class Segment:
    """A TCP segment."""

    source_port: int
    destination_port: int
    sequence: int
    flags: int
    data: bytes


def segment_of(payload: bytes) -> Segment | None:
    """Returns the TCP segment that an IP packet carries, or None where it is none."""
    if len(payload) < 20:
        return None
    source, destination, sequence, _, offset, flags = struct.unpack_from(">HHIIBB", payload)
    start = (offset >> 4) * 4
    if start < 20 or start > len(payload):
        return None
    return Segment(source, destination, sequence, flags, payload[start:])


@dataclass
class Octets:
    """The octets of one direction, in order. `lost` counts those that the capture lacks."""

    next_sequence: int | None = None
    has_beginning: bool = False
    ready: bytearray = field(default_factory=bytearray)
    pending: dict[int, bytes] = field(default_factory=dict)
    pending_octets: int = 0

    def take(self, segment: Segment) -> None:
        """Adds a segment: what was there before is passed over, what comes early waits."""
        sequence = segment.sequence
        if segment.flags & SYN:
            sequence = (sequence + 1) % CYCLE
            if self.next_sequence is None:
                self.next_sequence, self.has_beginning = sequence, True
        if not segment.data:
            return
        if self.next_sequence is None:
            self.next_sequence = sequence
        if not self._append(sequence, segment.data):
            known = self.pending.get(sequence, b"")
            if len(segment.data) > len(known):
                self.pending[sequence] = segment.data
                self.pending_octets += len(segment.data) - len(known)
        self._drain()

    def _append(self, sequence: int, data: bytes) -> bool:
        assert self.next_sequence is not None
        early = (sequence - self.next_sequence) % CYCLE
        if 0 < early < CYCLE // 2:
            return False
        fresh = data[(self.next_sequence - sequence) % CYCLE:]
        self.ready += fresh
        self.next_sequence = (self.next_sequence + len(fresh)) % CYCLE
        return True

    def _drain(self) -> None:
        is_moving = bool(self.pending)
        while is_moving:
            is_moving = False
            for sequence in list(self.pending):
                if self._append(sequence, self.pending[sequence]):
                    self.pending_octets -= len(self.pending.pop(sequence))
                    is_moving = True

    def skip(self) -> int:
        """Goes on at the first octets that wait; returns how many octets between are missing (0: none wait)."""
        if not self.pending or self.next_sequence is None:
            return 0
        start = self.next_sequence
        first = min(self.pending, key=lambda sequence: (sequence - start) % CYCLE)
        self.next_sequence = first
        self._drain()
        return (first - start) % CYCLE
