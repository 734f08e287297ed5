"""NetFlow versions 5 and 9: what distinguishes them from other datagrams, and the templates of version 9 (RFC 3954)."""
from __future__ import annotations

import struct
from typing import Iterator

from once_tools.streams.messages import Field, Malformed, Set, Template

VERSION_5_RECORD, VERSION_5_HEADER, VERSION_9_HEADER = 48, 24, 20
TEMPLATES, OPTIONS_TEMPLATES = 0, 1


def version_of(payload: bytes) -> int | None:
    """Returns 5 or 9 where a datagram is a NetFlow message of that version."""
    if len(payload) < 24:
        return None
    version, count = struct.unpack_from(">HH", payload)
    if version == 5 and 1 <= count <= 30 and len(payload) == VERSION_5_HEADER + VERSION_5_RECORD * count:
        return 5
    if version == 9 and count:
        number, length = struct.unpack_from(">HH", payload, VERSION_9_HEADER)
        is_set = number in (TEMPLATES, OPTIONS_TEMPLATES) or number >= 256
        return 9 if is_set and 4 <= length <= len(payload) - VERSION_9_HEADER else None
    return None


def domain_of(payload: bytes) -> int:
    """Returns the source number of a message of version 9."""
    return int(struct.unpack_from(">I", payload, 16)[0])


def sets_of(payload: bytes) -> Iterator[Set]:
    """Yields the flow sets of a message of version 9."""
    place = VERSION_9_HEADER
    while len(payload) - place >= 4:
        number, length = struct.unpack_from(">HH", payload, place)
        if length < 4 or place + length > len(payload):
            raise Malformed(f"has flow set {number} of {length} octets, which does not fit into the message")
        yield Set(number, payload[place + 4:place + length])
        place += length


def templates_of(one: Set) -> Iterator[Template]:
    """Yields the templates of a template flow set of version 9."""
    place, body = 0, one.body
    while len(body) - place >= 4:
        if one.number == TEMPLATES:
            number, count = struct.unpack_from(">HH", body, place)
            scope, place = 0, place + 4
        else:
            if len(body) - place < 6:
                return
            number, scope_octets, option_octets = struct.unpack_from(">HHH", body, place)
            scope, count, place = scope_octets // 4, (scope_octets + option_octets) // 4, place + 6
        if number < 256 or place + 4 * count > len(body):
            return  # padding
        pairs = struct.unpack_from(f">{2 * count}H", body, place)
        place += 4 * count
        # The scope fields of version 9 have numbers of their own (1 to 5): they are no information elements.
        fields = [Field(pairs[2 * at], pairs[2 * at + 1], 0 if at >= scope else 1 << 32) for at in range(count)]
        yield Template(number, tuple(fields), scope, one.number == OPTIONS_TEMPLATES)
