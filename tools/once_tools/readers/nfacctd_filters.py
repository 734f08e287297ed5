"""Filters of a plugin that stores, as aggregations: one value or prefix of an axis for each condition."""
from __future__ import annotations

from dataclasses import replace

from once_tools.boxes import TooManyBoxes
from once_tools.model import Aggregation, Match
from once_tools.readers import filters
from once_tools.readers.pcap_filter import UnreadFilter, region_of
from once_tools.readers.trees import Setting

Key = list[tuple[str, int | None]]


def aggregations_of(plugin: str, line: Setting, key: Key) -> list[Aggregation]:
    """Returns the aggregations that take the records of a filter, at most one for each version of IP.

    Raises UnreadFilter if an aggregation cannot have the filter's conditions.
    """
    found = []
    for version in (4, 6):
        match, fields = match_of(line, version), fields_of(key, version)
        if match is None:
            continue
        if any(f"IPv{10 - version}" in element for element, _ in fields):
            raise UnreadFilter(line.value, f"also passes IPv{version} records, which {plugin} does not store by its key")
        if any(f"IPv{version}" in element for element in [*match, *(element for element, _ in fields)]):
            match = {element: value for element, value in match.items() if element != "ipVersion"}
        found.append(Aggregation(f"{plugin} IPv{version}", fields, [plugin], line.place, match))
    return joined(plugin, found)


def joined(plugin: str, found: list[Aggregation]) -> list[Aggregation]:
    """Returns one aggregation for both versions if they differ in nothing else."""
    both = [({element: value for element, value in one.match.items() if element != "ipVersion"}, one.key) for one in found]
    if len(found) == 2 and both[0] == both[1]:
        return [replace(found[0], name=plugin, match=both[0][0])]
    return found


def match_of(line: Setting, version: int) -> Match | None:
    """Returns the values that records of one version must have, None if no record passes. Raises UnreadFilter."""
    try:
        found = filters.selections("", region_of(line.value, version), "", line.place, 1)
    except TooManyBoxes:
        raise UnreadFilter(line.value, "takes several values or prefixes of an axis, and an aggregation has one") from None
    return found[0].match if found else None


def fields_of(key: Key, version: int) -> Key:
    """Returns a key for one version of IP."""
    return [(f"{element}IPv{version}Address" if element in ("source", "destination") else element, length)
            for element, length in key]
