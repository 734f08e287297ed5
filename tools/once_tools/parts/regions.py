"""Which packets selection processes and classes may have, for cutting: whatever is not certain counts as one that may."""
from __future__ import annotations

from once_tools.boxes import AXES, BITS, PLACES, Box, Interval, intersection, read_interval
from once_tools.parts.loading import Value

NUMBERS = {8: "sourceIPv4Address", 12: "destinationIPv4Address", 4: "protocolIdentifier", 7: "sourceTransportPort", 11: "destinationTransportPort",
           5: "ipClassOfService", 60: "ipVersion", 27: "sourceIPv6Address", 28: "destinationIPv6Address", 44: "sourceIPv4Prefix",
           45: "destinationIPv4Prefix", 170: "sourceIPv6Prefix", 169: "destinationIPv6Prefix"}
# A layout by axis: how many leading bits of it a record has.
Layout = frozenset[tuple[str, int]]


def element_of(entry: Value) -> str:
    """Returns the name of an entry's element, an empty one if `once` does not distinguish packets by it."""
    members = entry.members()
    if members.get("ieEnterpriseNumber", 0) != 0:
        return ""
    if "ieId" in members:
        return NUMBERS.get(entry.number_at("ieId"), "")
    return entry.text_at("ieName")


def interval_of(match: Value) -> tuple[str, Interval]:
    """Returns the axis of a filterMatch and the values that pass."""
    element, text = element_of(match), match.text_at("value")
    axis = element.replace("Prefix", "Address")
    try:
        if element not in NUMBERS.values() or (axis != element) != ("/" in text) or "-" in text:
            raise ValueError("no value of the element")
        return axis, read_interval(axis, text)
    except ValueError as error:
        raise match.wrong(f"filters by what `once` does not read: {error}", "correct the element or its value: see docs/FORMATS.md, A device") from error


def selected_by(process: Value) -> Box | None:
    """Returns the packets that pass all selectors of a selection process, None if no packet does."""
    found: Box | None = Box()
    for selector in process.listed("selector"):
        match = selector.optional("filterMatch")
        if match is not None and found is not None:
            axis, interval = interval_of(match)
            found = intersection(found, Box().cut(axis, interval))
    return found


def region_of(entry: Value) -> Box:
    """Returns the region of a class."""
    found, region = Box(), entry.optional("region")
    for axis, value in region.each() if region is not None else ():
        try:
            if axis not in PLACES:
                raise ValueError("this is no axis")
            found = found.cut(axis, read_interval(axis, value.text()))
        except ValueError as error:
            raise value.wrong(f"is no set of values: {error}", "write VALUE, LOW-HIGH or ADDRESS/LENGTH: see docs/FORMATS.md, Traffic") from error
    return found


def key_layout(fields: list[Value]) -> Layout:
    """Returns the layout of a report's or an aggregation's key."""
    found = set()
    for field in fields:
        element = element_of(field)
        axis = element.replace("Prefix", "Address")
        if axis not in AXES:
            raise field.wrong("is no axis", "name an element of docs/FORMATS.md, The nine axes")
        found.add((axis, field.number_at("prefixLength") if axis != element else BITS[axis]))
    return frozenset(found)


def cache_layout(cache: Value) -> Layout:
    """Returns the layout of a cache's records: its flow keys, in an immediate cache all axes."""
    kinds = [kind for kind in ("immediateCache", "timeoutCache", "naturalCache", "permanentCache") if kind in cache.members()]
    if not kinds:
        raise cache.wrong("has no kind of cache", "give it one of immediateCache, timeoutCache, naturalCache, permanentCache")
    elements = {element_of(one) for one in cache.member(kinds[0]).member("cacheLayout").listed("cacheField")
                if kinds[0] == "immediateCache" or "isFlowKey" in one.members()}
    return frozenset((axis, BITS[axis]) for axis in elements if axis in PLACES)


def meets(first: Box | None, second: Box) -> bool:
    """Returns whether a packet of the second may be one of the first."""
    return first is not None and intersection(first, second) is not None
