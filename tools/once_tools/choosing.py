"""Collectors that count records of one direction, or of certain interfaces, alone.

Directions and interfaces are no axes. But the records of an observation point have one direction, and one interface if they
are distinguished by it: points that such a collector does not count get a cache and exporters of their own without a link to it.
"""
from __future__ import annotations

import fnmatch
from dataclasses import replace

from once_tools.model import Cache, Device, Direction, Exporter, Finding, Grade, Interface, Point, Topic
from once_tools.network import Link, Network, exporter_of
from once_tools.project import CollectorEntry

BOTH = (Direction.INGRESS, Direction.EGRESS)


def is_chosen(entry: CollectorEntry, device: Device, interface: str) -> bool:
    """Returns whether a collector counts records of an interface."""
    if not entry.interfaces:
        return True
    known = next((one for one in device.interfaces if one.name == interface), Interface(interface, entry.place))
    return any(fnmatch.fnmatchcase(f"{device.name}:{name}", pattern) for pattern in entry.interfaces
               for name in (known.name, *known.aliases))


def split_direction(entry: CollectorEntry, point: Point) -> list[Point]:
    """Returns a point for each direction, if the collector distinguishes directions."""
    if not entry.directions or point.direction is not Direction.BOTH or len(entry.directions) == 2:
        return [point]
    return [replace(point, name=f"{point.name} {one.value}", direction=one) for one in BOTH]


def split(entry: CollectorEntry, device: Device, point: Point) -> list[tuple[Point, bool]]:
    """Returns the parts of a point, each with whether the collector counts it."""
    found = []
    for part in split_direction(entry, point):
        fits = not entry.directions or part.direction in entry.directions or len(entry.directions) == 2
        chosen = [fits and is_chosen(entry, device, name) for name in part.interfaces]
        for wanted in (True, False):
            at = [number for number, one in enumerate(chosen) if one is wanted]
            if at:
                name = part.name if len(at) == len(chosen) or wanted else f"{part.name} not of {entry.name}"
                places = [part.interface_places[number] for number in at] if part.interface_places else []
                found.append((replace(part, name=name, interfaces=[part.interfaces[number] for number in at],
                                      interface_places=places), wanted))
    return found


class _Chooser:
    """Takes what a collector does not count out of its links, cache by cache of a device."""

    def __init__(self, network: Network, entry: CollectorEntry, device: Device) -> None:
        self.network, self.entry, self.device = network, entry, device
        self.linked = {one.exporter for one in network.links if one.device == device.name and one.to_device == entry.name}

    def needed(self) -> set[str]:
        """Returns the flow keys by which records can be chosen."""
        keys = {"flowDirection"} if self.entry.directions else set()
        return keys | ({"ingressInterface"} if self.entry.interfaces else set())

    def exporter(self, name: str) -> str:
        """Returns the name of an exporter without a link to the collector, made if it is not there."""
        apart = f"{name} not of {self.entry.name}"
        original = exporter_of(self.device, name)
        if original and exporter_of(self.device, apart) is None:
            self.device.exporters.append(Exporter(apart, list(original.destinations), original.place, original.mode,
                                                  original.source))
            self.network.links += [Link(one.device, apart, one.destination, one.to_device, one.to_process, one.place)
                                   for one in self.network.links if one.device == self.device.name and one.exporter == name
                                   and one.to_device != self.entry.name]
        return apart

    def cache(self, cache: Cache) -> str:
        """Returns the name of a copy of a cache whose records do not come to the collector."""
        apart = f"{cache.name} not of {self.entry.name}"
        if all(one.name != apart for one in self.device.caches):
            names = [self.exporter(name) if name in self.linked else name for name in cache.exporters]
            self.device.caches.append(replace(cache, name=apart, exporters=names))
        return apart

    def apart(self, point: Point, caches: dict[str, Cache]) -> Point:
        """Returns a point that the collector does not count, with caches of its own."""
        selections = [replace(one, name=f"{one.name} not of {self.entry.name}", cache=self.cache(caches[one.cache]))
                      if one.cache in caches else one for one in point.selections]
        return replace(point, selections=selections)

    def choose(self) -> None:
        """Splits the points of the device."""
        caches = {one.name: one for one in self.device.caches if self.linked & set(one.exporters)}
        parts = [(part, counted) for point in self.device.points for part, counted in split(self.entry, self.device, point)]
        mixed = {name for name in caches if len({counted for part, counted in parts
                                                 if any(one.cache == name for one in part.selections)}) == 2}
        for name in mixed:
            lacks = self.needed() - set(caches[name].other_keys)
            if lacks:
                self.network.findings.append(Finding(
                    Grade.NOT_CARRIED_OVER, caches[name].place, f"{self.entry.name} counts some records by direction or "
                    f"interface, and records of {name} are not distinguished by {', '.join(sorted(lacks))}: the document has "
                    "them distinguished", "add the field to the flow keys of the record", Topic.FILTER, None, self.device.name,
                    tuple(caches[name].exporters)))
        self.device.points = [part if counted else self.apart(part, caches) for part, counted in parts]


def choose(network: Network, entry: CollectorEntry) -> None:
    """Takes records that a collector does not count out of its links."""
    for device in network.devices:
        chooser = _Chooser(network, entry, device)
        if chooser.linked and device.points:
            chooser.choose()
