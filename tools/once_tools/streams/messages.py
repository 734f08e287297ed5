"""IPFIX messages (RFC 7011): their sets, templates and records."""
from __future__ import annotations

import struct
from dataclasses import dataclass
from typing import Iterator

VARIABLE = 0xFFFF
HEADER = struct.Struct(">HHIII")
TEMPLATES, OPTIONS_TEMPLATES, FIRST_DATA = 2, 3, 256


class Malformed(Exception):
    """Octets that are no message, or a message whose sets don't fit. The text says why."""


@dataclass(frozen=True)
class Field:
    """A field of a template: an information element, its length in octets, and its enterprise (0 for IANA's)."""

    element: int
    length: int
    enterprise: int = 0


@dataclass(frozen=True)
class Template:
    """A template. The first `scope` fields of an options template say what its records are about; 0 for others."""

    number: int
    fields: tuple[Field, ...]
    scope: int = 0
    is_options: bool = False

    @property
    def least_length(self) -> int:
        """The octets of the shortest record."""
        return sum(1 if field.length == VARIABLE else field.length for field in self.fields)


@dataclass(frozen=True)
class Set:
    """A set of a message: its number and its octets without the header."""

    number: int
    body: bytes


@dataclass(frozen=True)
class Message:
    """A message. `sets` are in its order."""

    octets: bytes
    version: int
    time: int
    sequence: int
    domain: int
    sets: tuple[Set, ...]

    def with_sets(self, sets: tuple[Set, ...]) -> bytes:
        """Returns the octets of this message with these of its sets alone."""
        if sets == self.sets:
            return self.octets
        body = b"".join(struct.pack(">HH", one.number, 4 + len(one.body)) + one.body for one in sets)
        return HEADER.pack(self.version, 16 + len(body), self.time, self.sequence, self.domain) + body


def read_message(octets: bytes) -> Message:
    """Returns the message that these octets are."""
    if len(octets) < 16:
        raise Malformed("has fewer octets than a message header")
    version, length, time, sequence, domain = HEADER.unpack_from(octets)
    if version != 10:
        raise Malformed(f"has version {version}, IPFIX is 10")
    if length != len(octets):
        raise Malformed(f"says that it has {length} octets, and has {len(octets)}")
    return Message(octets, version, time, sequence, domain, tuple(sets_of(octets[16:])))


def sets_of(octets: bytes) -> Iterator[Set]:
    """Yields the sets that follow a message header."""
    place = 0
    while place < len(octets):
        if len(octets) - place < 4:
            raise Malformed("has octets after its last set")
        number, length = struct.unpack_from(">HH", octets, place)
        if length < 4 or place + length > len(octets):
            raise Malformed(f"has set {number} of {length} octets, which does not fit into the message")
        if number not in (TEMPLATES, OPTIONS_TEMPLATES) and number < FIRST_DATA:
            raise Malformed(f"has set {number}, a number that IPFIX reserves")
        yield Set(number, octets[place + 4:place + length])
        place += length


def templates_of(one: Set) -> Iterator[Template]:
    """Yields the templates of a template set; one without fields withdraws its number."""
    place, body, is_options = 0, one.body, one.number == OPTIONS_TEMPLATES
    while len(body) - place >= 4:
        number, count = struct.unpack_from(">HH", body, place)
        place += 4
        if number < FIRST_DATA and not (count == 0 and number == one.number):
            raise Malformed(f"has a template with the reserved number {number}")
        scope = 0
        if is_options and count:
            if len(body) - place < 2:
                raise Malformed(f"ends within template {number}")
            scope = struct.unpack_from(">H", body, place)[0]
            place += 2
            if not 1 <= scope <= count:
                raise Malformed(f"has options template {number} with {scope} scope fields of {count}")
        fields, place = _fields(body, place, count, number)
        yield Template(number, fields, scope, is_options)


def _fields(body: bytes, place: int, count: int, number: int) -> tuple[tuple[Field, ...], int]:
    fields = []
    try:
        for _ in range(count):
            element, length = struct.unpack_from(">HH", body, place)
            place += 4
            enterprise = 0
            if element & 0x8000:
                enterprise = struct.unpack_from(">I", body, place)[0]
                place += 4
            fields.append(Field(element & 0x7FFF, length, enterprise))
    except struct.error as error:
        raise Malformed(f"ends within template {number}") from error
    return tuple(fields), place


def count_records(template: Template, body: bytes) -> int:
    """Returns how many records a data set has."""
    if all(field.length != VARIABLE for field in template.fields):
        return len(body) // template.least_length if template.least_length else 0
    return sum(1 for _ in records_of(template, body))


def records_of(template: Template, body: bytes) -> Iterator[list[bytes]]:
    """Yields the records of a data set, each the values of its fields; what is too short for a record is padding."""
    place, least = 0, template.least_length
    while least and len(body) - place >= least:
        values = []
        for field in template.fields:
            length = field.length
            if length == VARIABLE:
                length, place = _variable_length(body, place)
            if place + length > len(body):
                raise Malformed(f"ends within a record of template {template.number}")
            values.append(body[place:place + length])
            place += length
        yield values


def _variable_length(body: bytes, place: int) -> tuple[int, int]:
    """Returns the length that is written at a place, and the place after it (RFC 7011, 7)."""
    if place >= len(body):
        raise Malformed("ends before the length of a value")
    if body[place] < 255:
        return body[place], place + 1
    if place + 3 > len(body):
        raise Malformed("ends within the length of a value")
    return int.from_bytes(body[place + 1:place + 3], "big"), place + 3


def begins_message(octets: bytes, start: int = 0) -> bool:
    """Whether octets look like the beginning of an IPFIX message with a set."""
    if len(octets) - start < 20:
        return False
    version, length = struct.unpack_from(">HH", octets, start)
    number, set_length = struct.unpack_from(">HH", octets, start + 16)
    is_set = number in (TEMPLATES, OPTIONS_TEMPLATES) or number >= FIRST_DATA
    return bool(version == 10 and length >= 20 and is_set and 4 <= set_length <= length - 16)
