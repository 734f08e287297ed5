"""User messages of SCTP associations (RFC 9260)."""
from __future__ import annotations

import struct
from dataclasses import dataclass, field
from typing import Iterator

BEGINNING, ENDING = 2, 1
CYCLE = 1 << 32


@dataclass(frozen=True)
class Chunk:
    """A DATA chunk."""

    number: int
    stream: int
    flags: int
    data: bytes
    frame: int


def ports_of(payload: bytes) -> tuple[int, int, int] | None:
    """Returns source port, destination port and verification tag of a packet."""
    if len(payload) < 12:
        return None
    source, destination, tag = struct.unpack_from(">HHI", payload)
    return source, destination, tag


def chunks_of(payload: bytes, frame: int) -> Iterator[Chunk]:
    """Yields the DATA chunks of a packet."""
    place = 12
    while len(payload) - place >= 4:
        kind, flags, length = struct.unpack_from(">BBH", payload, place)
        if length < 4 or place + length > len(payload):
            return
        if kind == 0 and length > 16:
            number, stream = struct.unpack_from(">IH", payload, place + 4)
            yield Chunk(number, stream, flags, payload[place + 16:place + length], frame)
        place += length + (-length) % 4


@dataclass
class Association:
    """The DATA chunks of one direction of an association, each once, whatever was sent again."""

    chunks: dict[int, Chunk] = field(default_factory=dict)
    repeated: int = 0

    def take(self, chunk: Chunk) -> None:
        """Keeps a chunk, or counts it where it came before."""
        if chunk.number in self.chunks:
            self.repeated += 1
        else:
            self.chunks[chunk.number] = chunk

    def messages(self) -> Iterator[tuple[Chunk, bytes | None]]:
        """Yields the user messages in the order of their numbers, None for one that lacks a chunk."""
        if not self.chunks:
            return
        first = next(iter(self.chunks))
        order = sorted(self.chunks, key=lambda number: (number - first + CYCLE // 2) % CYCLE)
        begun: list[Chunk] = []
        for number in order:
            chunk = self.chunks[number]
            follows = begun and (begun[-1].number + 1) % CYCLE == number
            if begun and (not follows or chunk.flags & BEGINNING):
                yield begun[0], None
                begun = []
            if not begun and not chunk.flags & BEGINNING:
                yield chunk, None
                continue
            begun.append(chunk)
            if chunk.flags & ENDING:
                yield begun[0], b"".join(one.data for one in begun)
                begun = []
        if begun:
            yield begun[0], None
