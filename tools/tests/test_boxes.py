"""Boxes against brute force and against Python's `ipaddress`."""
from __future__ import annotations

import ipaddress
import random

import pytest

from once_tools import boxes
from once_tools.boxes import Box, box

SMALL = ("protocolIdentifier", "ipClassOfService", "sourceTransportPort")


def points(region: list[Box]) -> list[tuple[int, ...]]:
    """All points of boxes within 0..7 on the small axes, with repetition."""
    found = []
    for one in region:
        ranges = [range(one.side(axis)[0], one.side(axis)[1] + 1) for axis in SMALL]
        found += [(a, b, c) for a in ranges[0] for b in ranges[1] for c in ranges[2]]
    return found


def some_box(source: random.Random) -> Box:
    sides = {}
    for axis in SMALL:
        low = source.randrange(6)
        sides[axis] = (low, source.randrange(low, 6))
    return box(**sides)


@pytest.mark.parametrize("seed", range(40))
def test_operations_hold_the_points_of_sets(seed: int) -> None:
    source = random.Random(seed)
    first = boxes.disjoint(some_box(source) for _ in range(4))
    second = boxes.disjoint(some_box(source) for _ in range(4))
    for region in (first, second):
        assert len(points(region)) == len(set(points(region)))
    expected = {
        "difference": set(points(first)) - set(points(second)),
        "common": set(points(first)) & set(points(second)),
        "union": set(points(first)) | set(points(second)),
    }
    results = {"difference": boxes.difference(first, second), "common": boxes.common(first, second),
               "union": boxes.union(first, second)}
    for name, region in results.items():
        assert sorted(points(region)) == sorted(expected[name]), name
        merged = boxes.joined(region)
        assert sorted(points(merged)) == sorted(expected[name]) and len(merged) <= len(region)


@pytest.mark.parametrize("low,high", [("0.0.0.0", "10.10.255.255"), ("10.12.0.0", "255.255.255.255"),
                                      ("10.4.0.0", "10.4.254.255"), ("1.2.3.4", "1.2.3.4"),
                                      ("0.0.0.1", "255.255.255.254")])
def test_prefixes_are_those_of_ipaddress(low: str, high: str) -> None:
    expected = [str(one) for one in ipaddress.summarize_address_range(ipaddress.IPv4Address(low),
                                                                     ipaddress.IPv4Address(high))]
    found = boxes.prefixes((int(ipaddress.IPv4Address(low)), int(ipaddress.IPv4Address(high))), 32)
    assert [f"{ipaddress.IPv4Address(value)}/{length}" for value, length in found] == expected


def test_prefixes_of_everything_are_one() -> None:
    assert boxes.prefixes((0, (1 << 128) - 1), 128) == [(0, 0)]


@pytest.mark.parametrize("region", [
    {"ipVersion": "4", "sourceIPv4Address": "10.4.0.0-10.4.254.255"},
    {"sourceIPv4Address": "10.3.0.0/16", "destinationTransportPort": "1024-65535"},
    {"ipVersion": "6", "sourceIPv6Address": "2001:db8::/32", "destinationIPv6Address": "2001:db8::1"},
])
def test_regions_are_spelled_as_they_are_read(region: dict[str, str]) -> None:
    assert boxes.spell_region(boxes.read_region(region)) == dict(sorted(
        region.items(), key=lambda item: boxes.PLACES[item[0]]))


@pytest.mark.parametrize("region", [{"sourceIPv4Address": "10.0.0"}, {"ipVersion": "256"}, {"ttl": "1"},
                                    {"sourceTransportPort": "9-8"}, {"sourceIPv4Address": "2001:db8::/32"},
                                    {"protocolIdentifier": "1/8"}, {"sourceIPv6Address": "fe80::1%eth0"}])
def test_texts_that_are_no_regions_are_refused(region: dict[str, str]) -> None:
    with pytest.raises(ValueError):
        boxes.read_region(region)


def test_matches_name_values_and_prefixes() -> None:
    one = boxes.read_region({"ipVersion": "4", "sourceIPv4Address": "10.0.0.1", "protocolIdentifier": "6-7",
                             "destinationIPv4Address": "10.4.0.0-10.4.2.255"})
    assert boxes.matches([one]) == [
        {"ipVersion": "4", "sourceIPv4Address": "10.0.0.1", "destinationIPv4Prefix": "10.4.0.0/23",
         "protocolIdentifier": "6"},
        {"ipVersion": "4", "sourceIPv4Address": "10.0.0.1", "destinationIPv4Prefix": "10.4.0.0/23",
         "protocolIdentifier": "7"},
        {"ipVersion": "4", "sourceIPv4Address": "10.0.0.1", "destinationIPv4Prefix": "10.4.2.0/24",
         "protocolIdentifier": "6"},
        {"ipVersion": "4", "sourceIPv4Address": "10.0.0.1", "destinationIPv4Prefix": "10.4.2.0/24",
         "protocolIdentifier": "7"}]


def test_more_than_the_limit_is_counted() -> None:
    with pytest.raises(boxes.TooManyBoxes) as caught:
        boxes.matches([boxes.read_region({"destinationTransportPort": "1024-65535"})])
    assert caught.value.count == 64512
