"""Sets of packets as boxes: an inclusive interval of values on each of the nine axes that `once` knows.

A region is a list of boxes that do not overlap. Every function here that returns several boxes keeps them disjoint.
"""
from __future__ import annotations

import ipaddress
from dataclasses import dataclass
from typing import Iterable, Mapping, Sequence

Interval = tuple[int, int]

AXES = ("sourceIPv4Address", "destinationIPv4Address", "protocolIdentifier", "sourceTransportPort",
        "destinationTransportPort", "ipClassOfService", "ipVersion", "sourceIPv6Address", "destinationIPv6Address")
BITS = {"sourceIPv4Address": 32, "destinationIPv4Address": 32, "protocolIdentifier": 8, "sourceTransportPort": 16,
        "destinationTransportPort": 16, "ipClassOfService": 8, "ipVersion": 8, "sourceIPv6Address": 128,
        "destinationIPv6Address": 128}
PLACES = {axis: place for place, axis in enumerate(AXES)}
ALL: tuple[Interval, ...] = tuple((0, (1 << BITS[axis]) - 1) for axis in AXES)
MOST_SELECTIONS = 64
MOST_BOXES = 4096


class TooManyBoxes(Exception):
    """A region has no form of few enough boxes or selection processes; `count` is how many it would take."""

    def __init__(self, count: int) -> None:
        super().__init__(f"{count} boxes")
        self.count = count


@dataclass(frozen=True)
class Box:
    """The packets whose value on each axis of AXES is in the interval with the same index."""

    sides: tuple[Interval, ...] = ALL

    def side(self, axis: str) -> Interval:
        """Returns the interval on an axis."""
        return self.sides[PLACES[axis]]

    def cut(self, axis: str, interval: Interval) -> Box:
        """Returns the box with this interval on an axis, whatever it had there."""
        place = PLACES[axis]
        return Box(self.sides[:place] + (interval,) + self.sides[place + 1:])

    def size(self) -> int:
        """Returns how many packets (points of the nine axes) the box holds."""
        product = 1
        for low, high in self.sides:
            product *= high - low + 1
        return product


def box(**sides: Interval) -> Box:
    """Returns the box with these intervals; axes that are not named hold every value."""
    found = Box()
    for axis, interval in sides.items():
        found = found.cut(axis, interval)
    return found


def family(version: int) -> Box:
    """Returns all packets of IPv4 (4) or IPv6 (6)."""
    return box(ipVersion=(version, version))


def intersection(first: Box, second: Box) -> Box | None:
    """Returns the packets of both boxes, None if there are none."""
    sides = []
    for (low, high), (other_low, other_high) in zip(first.sides, second.sides):
        low, high = max(low, other_low), min(high, other_high)
        if low > high:
            return None
        sides.append((low, high))
    return Box(tuple(sides))


def without(first: Box, second: Box) -> list[Box]:
    """Returns the packets of the first box that are not in the second, by axis and value."""
    common = intersection(first, second)
    if common is None:
        return [first]
    found, rest = [], first
    for axis in AXES:
        (low, high), (common_low, common_high) = rest.side(axis), common.side(axis)
        if low < common_low:
            found.append(rest.cut(axis, (low, common_low - 1)))
        if common_high < high:
            found.append(rest.cut(axis, (common_high + 1, high)))
        rest = rest.cut(axis, (common_low, common_high))
    return found


def difference(region: Iterable[Box], minus: Iterable[Box]) -> list[Box]:
    """Returns the packets of a region that are in no box of another one. Raises TooManyBoxes above MOST_BOXES."""
    found = list(region)
    for taken in minus:
        found = [part for one in found for part in without(one, taken)]
        if len(found) > MOST_BOXES:
            raise TooManyBoxes(len(found))
    return found


def common(first: Iterable[Box], second: Sequence[Box]) -> list[Box]:
    """Returns the packets of both regions."""
    pairs = (intersection(one, other) for one in first for other in second)
    found = [one for one in pairs if one is not None]
    if len(found) > MOST_BOXES:
        raise TooManyBoxes(len(found))
    return found


def union(first: Sequence[Box], second: Iterable[Box]) -> list[Box]:
    """Returns the packets of either region: the first as it is, then what the second adds."""
    return [*first, *difference(second, first)]


def disjoint(boxes: Iterable[Box]) -> list[Box]:
    """Returns a region of the packets of boxes that may overlap; earlier boxes stay whole."""
    found: list[Box] = []
    for one in boxes:
        found = union(found, [one])
    return found


def joined(region: Iterable[Box]) -> list[Box]:
    """Returns the same packets in fewer boxes where two boxes differ on one axis alone and touch there."""
    found = sorted(region, key=lambda one: one.sides)
    changed = True
    while changed:
        changed = False
        for axis in range(len(AXES)):
            merged = _joined_on(axis, found)
            changed, found = changed or len(merged) < len(found), merged
    return sorted(found, key=lambda one: one.sides)


def _joined_on(axis: int, region: list[Box]) -> list[Box]:
    """Joins boxes that touch on this axis and are equal on all others."""
    def others(one: Box) -> tuple[tuple[Interval, ...], Interval]:
        return one.sides[:axis] + one.sides[axis + 1:], one.sides[axis]

    found: list[Box] = []
    for one in sorted(region, key=others):
        before = found[-1] if found else None
        if before and others(before)[0] == others(one)[0] and before.sides[axis][1] + 1 == one.sides[axis][0]:
            found[-1] = before.cut(AXES[axis], (before.sides[axis][0], one.sides[axis][1]))
        else:
            found.append(one)
    return found


def prefixes(interval: Interval, bits: int) -> list[tuple[int, int]]:
    """Returns the fewest (value, length) prefixes that hold exactly an interval of numbers of this many bits."""
    low, high = interval
    found = []
    while low <= high:
        spare = bits if low == 0 else (low & -low).bit_length() - 1
        spare = min(spare, (high - low + 1).bit_length() - 1)
        found.append((low, bits - spare))
        low += 1 << spare
    return found


def spell_value(axis: str, value: int) -> str:
    """Returns a value of an axis as documents of `once` spell it."""
    if BITS[axis] == 32:
        return str(ipaddress.IPv4Address(value))
    return str(ipaddress.IPv6Address(value)) if BITS[axis] == 128 else str(value)


def read_value(axis: str, text: str) -> int:
    """Returns the value that a text spells on an axis. Raises ValueError."""
    if BITS[axis] == 32:
        return int(ipaddress.IPv4Address(text))
    if BITS[axis] == 128:
        if "%" in text:
            raise ValueError(f"{text} has a zone")
        return int(ipaddress.IPv6Address(text))
    if not (text.isascii() and text.isdigit()) or int(text) >= 1 << BITS[axis]:
        raise ValueError(f"{text} is not a number from 0 to {(1 << BITS[axis]) - 1}")
    return int(text)


def read_interval(axis: str, text: str) -> Interval:
    """Returns the interval that VALUE, LOW-HIGH or PREFIX/LENGTH spells on an axis. Raises ValueError."""
    if "/" in text and BITS[axis] in (32, 128):
        network = ipaddress.ip_network(text, strict=False)
        if network.max_prefixlen != BITS[axis]:
            raise ValueError(f"{text} is not of the version of {axis}")
        return int(network.network_address), int(network.broadcast_address)
    low, hyphen, high = text.partition("-")
    first = read_value(axis, low)
    last = read_value(axis, high) if hyphen else first
    if first > last:
        raise ValueError(f"{text} ends before it begins")
    return first, last


def spell_interval(axis: str, interval: Interval) -> str:
    """Returns VALUE, PREFIX/LENGTH if the interval is a prefix of an address axis, else LOW-HIGH."""
    low, high = interval
    if low == high:
        return spell_value(axis, low)
    parts = prefixes(interval, BITS[axis]) if BITS[axis] in (32, 128) else []
    if len(parts) == 1 and parts[0][1] > 0:
        return f"{spell_value(axis, low)}/{parts[0][1]}"
    return f"{spell_value(axis, low)}-{spell_value(axis, high)}"


def read_region(region: Mapping[str, str]) -> Box:
    """Returns the box of a traffic document's region. Raises ValueError."""
    found = Box()
    for axis, text in region.items():
        if axis not in PLACES:
            raise ValueError(f"{axis} is not an axis")
        found = found.cut(axis, read_interval(axis, text))
    return found


def spell_region(one: Box) -> dict[str, str]:
    """Returns a box as the region of a traffic document; axes that hold every value are left out."""
    return {axis: spell_interval(axis, one.side(axis)) for axis in AXES if one.side(axis) != ALL[PLACES[axis]]}


def selection_count(one: Box) -> int:
    """Returns how many selection processes a box takes, since a filterMatch has one value or prefix."""
    product = 1
    for axis in AXES:
        product *= len(_parts_on(axis, one)) if BITS[axis] in (32, 128) else _values_on(axis, one)
    return product


def _values_on(axis: str, one: Box) -> int:
    low, high = one.side(axis)
    return 1 if (low, high) == ALL[PLACES[axis]] else high - low + 1


def _parts_on(axis: str, one: Box) -> list[dict[str, str]]:
    """Returns what a filterMatch says on an axis, for each value or prefix of the box there."""
    low, high = one.side(axis)
    if (low, high) == ALL[PLACES[axis]]:
        return [{}]
    if BITS[axis] not in (32, 128):
        return [{axis: str(value)} for value in range(low, high + 1)]
    found = []
    for value, length in prefixes((low, high), BITS[axis]):
        text = spell_value(axis, value)
        whole = length == BITS[axis]
        found.append({axis: text} if whole else {axis.replace("Address", "Prefix"): f"{text}/{length}"})
    return found


def matches(region: Sequence[Box], most: int = MOST_SELECTIONS) -> list[dict[str, str]]:
    """Returns the values and prefixes of the selection processes that pass exactly a region, `ipVersion` first.

    Raises TooManyBoxes if they are more than `most`.
    """
    count = sum(selection_count(one) for one in region)
    if count > most:
        raise TooManyBoxes(count)
    order = ("ipVersion", *(axis for axis in AXES if axis != "ipVersion"))
    found: list[dict[str, str]] = []
    for one in region:
        parts: list[dict[str, str]] = [{}]
        for axis in order:
            parts = [{**before, **more} for before in parts for more in _parts_on(axis, one)]
        found += parts
    return found
