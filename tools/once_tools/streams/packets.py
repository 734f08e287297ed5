"""IP packets within captured frames."""
from __future__ import annotations

import enum
import ipaddress
import struct
from dataclasses import dataclass

from once_tools.streams.capture import Frame

ETHERNET, RAW, LOOPBACK, OPENBSD_LOOPBACK, COOKED, COOKED_2 = 1, 101, 0, 108, 113, 276
RAW_LINKS = (RAW, 12, 14, 228, 229)
VLAN_TAGS = (0x8100, 0x88A8, 0x9100)
IPV6_EXTENSIONS = (0, 43, 60, 135, 139, 140)
TCP, UDP, ICMP, ICMP6, SCTP, IPV6_FRAGMENT = 6, 17, 1, 58, 132, 44


class Fault(enum.Enum):
    """Why a frame has no packet that can be read."""

    LINK_TYPE = "link type"
    CUT = "cut"
    MALFORMED = "malformed"


@dataclass(frozen=True)
class Packet:
    """An IP packet or a fragment of one. `payload` begins after the IP headers; `offset` is the fragment's, in octets."""

    source: str
    destination: str
    protocol: int
    payload: bytes
    frame: int
    identification: int = 0
    offset: int = 0
    more_fragments: bool = False

    @property
    def is_fragment(self) -> bool:
        """Whether it is a part of a packet."""
        return self.more_fragments or self.offset > 0


def packet_of(frame: Frame) -> Packet | Fault | None:
    """Returns the IP packet of a frame, why it has none that can be read, or None where it is of another protocol."""
    start = _network_header(frame)
    if not isinstance(start, int):
        return start
    octets = frame.octets[start:]
    version = octets[0] >> 4 if octets else 0
    try:
        if version == 4:
            return _ipv4(octets, frame)
        if version == 6:
            return _ipv6(octets, frame)
    except (struct.error, IndexError):
        return Fault.CUT if frame.is_cut else Fault.MALFORMED
    return Fault.CUT if frame.is_cut and not octets else None


def _network_header(frame: Frame) -> int | Fault | None:
    octets, link = frame.octets, frame.link
    if link in RAW_LINKS:
        return 0
    if link in (LOOPBACK, OPENBSD_LOOPBACK):
        return 4
    places = {ETHERNET: (12, 14), COOKED: (14, 16), COOKED_2: (0, 20)}
    if link not in places:
        return Fault.LINK_TYPE
    at, start = places[link]
    kind = int.from_bytes(octets[at:at + 2], "big")
    while kind in VLAN_TAGS and len(octets) >= start + 4:
        kind = int.from_bytes(octets[start + 2:start + 4], "big")
        start += 4
    return start if kind in (0x0800, 0x86DD) else None


def _ipv4(octets: bytes, frame: Frame) -> Packet | Fault:
    header, total = (octets[0] & 15) * 4, int.from_bytes(octets[2:4], "big")
    if total == 0 and not frame.is_cut:
        total = len(octets)  # segmentation offload: the kernel hands packets over without their length
    identification, flags = struct.unpack_from(">HH", octets, 4)
    if header < 20 or total < header:
        return Fault.MALFORMED
    if len(octets) < total:
        return Fault.CUT if frame.is_cut else Fault.MALFORMED
    return Packet(str(ipaddress.IPv4Address(octets[12:16])), str(ipaddress.IPv4Address(octets[16:20])), octets[9],
                  octets[header:total], frame.number, identification, (flags & 0x1FFF) * 8, bool(flags & 0x2000))


def _ipv6(octets: bytes, frame: Frame) -> Packet | Fault:
    length, protocol = struct.unpack_from(">HB", octets, 4)
    end = 40 + length if length else len(octets)
    if len(octets) < end or end < 40:
        return Fault.CUT if frame.is_cut else Fault.MALFORMED
    start, identification, offset, more = 40, 0, 0, False
    while protocol in IPV6_EXTENSIONS or protocol == IPV6_FRAGMENT:
        following = octets[start]
        if protocol == IPV6_FRAGMENT:
            flags, identification = struct.unpack_from(">HI", octets, start + 2)
            offset, more = flags & 0xFFF8, bool(flags & 1)
            start += 8
        else:
            start += (octets[start + 1] + 1) * 8
        protocol = following
        if offset:
            break
    return Packet(str(ipaddress.IPv6Address(octets[8:24])), str(ipaddress.IPv6Address(octets[24:40])), protocol,
                  octets[start:end], frame.number, identification, offset, more)
