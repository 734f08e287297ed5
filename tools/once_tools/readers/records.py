"""The fields of flow records, from the keys that a meter has for packets of either version of IP."""
from __future__ import annotations

from typing import Iterable

from once_tools.boxes import AXES
from once_tools.model import CacheField, Place

SOURCE, DESTINATION = "sourceAddress", "destinationAddress"
ADDRESSES = (SOURCE, DESTINATION)
PORTS = ("sourceTransportPort", "destinationTransportPort")
SEVEN = (*ADDRESSES, "protocolIdentifier", *PORTS, "ipClassOfService", "ipVersion")
COUNTERS = ("octetDeltaCount", "packetDeltaCount")


def of_version(element: str, version: int) -> str:
    """Returns the element that `sourceAddress` or `destinationAddress` stands for; others stay as they are."""
    return element.replace("Address", f"IPv{version}Address") if element in ADDRESSES else element


def fields(keys: Iterable[str], version: int, place: Place, octets: int | None = None) -> list[CacheField]:
    """Returns the fields of records: the keys in the order of the axes, then the two counters, each of this length in octets."""
    axes = {of_version(key, version) for key in keys}
    found = [CacheField(axis, True, place) for axis in AXES if axis in axes]
    return found + [CacheField(counter, False, place, octets) for counter in COUNTERS]


def destination_name(address: str, port: int) -> str:
    """Returns the name of a destination in documents."""
    return f"{address} port {port}"
