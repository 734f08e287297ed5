"""The information elements that packets are distinguished by, and how their values are written (docs/FORMATS.md)."""
from __future__ import annotations

import ipaddress
import re

# The greatest value of each axis that is a number; the others are addresses of this version.
NUMBERS = {"protocolIdentifier": 255, "sourceTransportPort": 65535, "destinationTransportPort": 65535,
           "ipClassOfService": 255, "ipVersion": 255}
ADDRESSES = {"sourceIPv4Address": 4, "destinationIPv4Address": 4, "sourceIPv6Address": 6, "destinationIPv6Address": 6}
PREFIXES = {"sourceIPv4Prefix": 4, "destinationIPv4Prefix": 4, "sourceIPv6Prefix": 6, "destinationIPv6Prefix": 6}
AXES = ["sourceIPv4Address", "destinationIPv4Address", "protocolIdentifier", "sourceTransportPort",
        "destinationTransportPort", "ipClassOfService", "ipVersion", "sourceIPv6Address", "destinationIPv6Address"]
COUNTERS = ("octetDeltaCount", "packetDeltaCount")
BITS = {4: 32, 6: 128}


def axis_of(element: str) -> str:
    """Returns the axis that an element is on; a prefix is on that of its address."""
    return element.replace("Prefix", "Address")


def is_number(text: str, least: int, most: int) -> bool:
    """Returns whether a text is a decimal number within bounds, without leading zeros."""
    return re.fullmatch("0|[1-9][0-9]{0,9}", text, re.A) is not None and least <= int(text) <= most


def number_of(axis: str, text: str) -> int | None:
    """Returns the value of an axis that a text spells, or None."""
    if axis in NUMBERS:
        return int(text) if is_number(text, 0, NUMBERS[axis]) else None
    if "%" in text:
        return None
    try:
        return int(ipaddress.IPv4Address(text)) if ADDRESSES[axis] == 4 else int(ipaddress.IPv6Address(text))
    except ValueError:
        return None


def is_prefix(version: int, text: str) -> bool:
    """Returns whether a text is an address of this version and a length."""
    address, _, bits = text.partition("/")
    return number_of(f"sourceIPv{version}Address", address) is not None and is_number(bits, 1, BITS[version])


def is_value(element: str, text: str) -> bool:
    """Returns whether a filter or a match may have this value."""
    if element in PREFIXES:
        return is_prefix(PREFIXES[element], text)
    return number_of(element, text) is not None


def is_range(axis: str, text: str) -> bool:
    """Returns whether a region may have these values on the axis."""
    low, hyphen, high = text.partition("-")
    if hyphen:
        first, last = number_of(axis, low), number_of(axis, high)
        return first is not None and last is not None and first <= last
    return number_of(axis, text) is not None or axis in ADDRESSES and is_prefix(ADDRESSES[axis], text)


def form_of(element: str) -> str:
    """Returns in words how values of an element are written."""
    if element in NUMBERS:
        return f"a number from 0 to {NUMBERS[element]}"
    version = PREFIXES[element] if element in PREFIXES else ADDRESSES[element]
    address = f"an address of IPv{version}"
    return f"{address} and /n, n from 1 to {BITS[version]}" if element in PREFIXES else address


def counters() -> list[dict[str, object]]:
    """Returns the two fields that each cache must have."""
    return [{"name": name, "ieName": name} for name in COUNTERS]


def cache_fields(axes: list[str]) -> list[dict[str, object]]:
    """Returns the fields of a cache by whose axes flows are distinguished."""
    keys: list[dict[str, object]] = [{"name": axis, "ieName": axis, "isFlowKey": [None]} for axis in axes]
    return keys + counters()
