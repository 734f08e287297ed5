"""Frames of capture files: pcap and pcapng."""
from __future__ import annotations

import struct
from dataclasses import dataclass, field
from pathlib import Path
from typing import BinaryIO, Iterator

from once_tools.model import Failed, Place, Unusable

MOST_FRAME = 262_144
MOST_BLOCK = 16 * 1024 * 1024
PCAP_MAGIC = {b"\xa1\xb2\xc3\xd4": ">", b"\xd4\xc3\xb2\xa1": "<", b"\xa1\xb2\x3c\x4d": ">", b"\x4d\x3c\xb2\xa1": "<"}
SECTION, INTERFACE, PACKET, SIMPLE_PACKET, ENHANCED_PACKET = 0x0A0D0D0A, 1, 2, 3, 6


@dataclass(frozen=True)
class Frame:
    """A captured frame. `number` counts from 1; a frame that the snap length cut has fewer octets than were sent."""

    number: int
    link: int
    octets: bytes
    is_cut: bool


@dataclass
class Reading:
    """How far a capture has been read. `ends_early` says what is wrong with its end, if the file is cut there."""

    name: str
    ends_early: str = ""
    frames: int = 0
    links: list[int] = field(default_factory=list)
    snap_lengths: list[int] = field(default_factory=list)


def frames_of(path: Path, reading: Reading) -> Iterator[Frame]:
    """Yields the frames of a capture file, in its order."""
    try:
        with path.open("rb") as file:
            magic = file.read(4)
            if magic in PCAP_MAGIC:
                yield from _pcap(file, PCAP_MAGIC[magic], reading)
            elif magic == b"\x0a\x0d\x0d\x0a":
                yield from _pcapng(file, reading)
            else:
                raise Unusable(Place(reading.name), *_other_file(magic))
    except OSError as error:
        raise Failed(Place(reading.name), f"cannot be read: {error.strerror}",
                       "name a capture that can be read") from error


def _other_file(magic: bytes) -> tuple[str, str]:
    if magic[:2] == b"\x1f\x8b":
        return "is compressed by gzip", "decompress it with gunzip first"
    if magic[:2] == b"\x00\x0a":
        return "is an IPFIX stream, not a capture", "give it to `once collect` as it is"
    return "is neither a pcap nor a pcapng file", "give a capture that tcpdump, dumpcap or tshark wrote"


def _pcap(file: BinaryIO, order: str, reading: Reading) -> Iterator[Frame]:
    header = file.read(20)
    if len(header) < 20:
        raise Unusable(Place(reading.name), "ends within its file header", "capture again")
    link = struct.unpack(order + "HHiIII", header)[5] & 0xFFFF
    while head := file.read(16):
        captured, original = struct.unpack(order + "II", head[8:]) if len(head) == 16 else (0, 0)
        if captured > MOST_FRAME:
            raise Unusable(Place(reading.name), f"frame {reading.frames + 1} claims {captured} octets, more than a "
                           f"capture can hold ({MOST_FRAME})", "the file is damaged: capture again")
        octets = file.read(captured)
        if len(head) < 16 or len(octets) < captured:
            reading.ends_early = f"the file ends within frame {reading.frames + 1}"
            return
        reading.frames += 1
        yield Frame(reading.frames, link, octets, captured < original)


def _pcapng(file: BinaryIO, reading: Reading) -> Iterator[Frame]:
    order, kind = "<", SECTION
    while True:
        length_octets = file.read(4)
        if kind == SECTION:
            order = _section_order(file.read(4), reading)
            reading.links.clear()
            reading.snap_lengths.clear()
            body_read = 4
        else:
            body_read = 0
        body = _body(file, order, length_octets, body_read, reading)
        if body is None:
            return
        if kind == INTERFACE and len(body) >= 8:
            reading.links.append(struct.unpack_from(order + "H", body)[0])
            reading.snap_lengths.append(struct.unpack_from(order + "I", body, 4)[0])
        elif kind in (PACKET, SIMPLE_PACKET, ENHANCED_PACKET):
            yield _packet(kind, body, order, reading)
        head = file.read(4)
        if len(head) < 4:
            reading.ends_early = "the file ends within a block" if head else ""
            return
        kind = struct.unpack(order + "I", head)[0]


def _section_order(octets: bytes, reading: Reading) -> str:
    for order in "<>":
        if len(octets) == 4 and struct.unpack(order + "I", octets)[0] == 0x1A2B3C4D:
            return order
    raise Unusable(Place(reading.name), "has a pcapng section header without its byte-order magic", "capture again")


def _body(file: BinaryIO, order: str, length_octets: bytes, already: int, reading: Reading) -> bytes | None:
    """Returns what a block holds between its two lengths, or None at a cut end."""
    if len(length_octets) < 4:
        reading.ends_early = "the file ends within a block"
        return None
    length = struct.unpack(order + "I", length_octets)[0]
    if length % 4 or length < 12 + already or length > MOST_BLOCK:
        raise Unusable(Place(reading.name), f"has a block of {length} octets after frame {reading.frames}, which pcapng "
                       "does not allow", "the file is damaged: capture again")
    rest = file.read(length - 8 - already)
    if len(rest) < length - 8 - already:
        reading.ends_early = f"the file ends within the block after frame {reading.frames}"
        return None
    return rest[:-4]


def _packet(kind: int, body: bytes, order: str, reading: Reading) -> Frame:
    reading.frames += 1
    interface, captured, original, start = 0, 0, 0, 20
    if kind == SIMPLE_PACKET and len(body) >= 4:
        original, start = struct.unpack_from(order + "I", body)[0], 4
        limit = reading.snap_lengths[0] if reading.snap_lengths else 0
        captured = min(original, limit or original, len(body) - 4)
    elif kind == ENHANCED_PACKET and len(body) >= 20:
        interface, _, _, captured, original = struct.unpack_from(order + "IIIII", body)
    elif kind == PACKET and len(body) >= 20:
        interface, _, _, _, captured, original = struct.unpack_from(order + "HHIIII", body)
    if interface >= len(reading.links) or captured > len(body) - start:
        raise Unusable(Place(reading.name), f"frame {reading.frames} is of an interface or a length that the file does "
                       "not have", "the file is damaged: capture again")
    return Frame(reading.frames, reading.links[interface], body[start:start + captured], captured < original)
