"""Names that a document must have once: those of interfaces of a point, points, destinations and listeners."""
from __future__ import annotations

from dataclasses import replace
from typing import Iterable, Iterator

from once_tools.model import Device, Exporter, Point

MOST_INTERFACES = 256


def numbered(names: Iterable[str]) -> Iterator[str]:
    """Yields names, the second of a name as `NAME 2` and so on."""
    seen: set[str] = set()
    for name in names:
        found, number = name, 2
        while found in seen:
            found, number = f"{name} {number}", number + 1
        seen.add(found)
        yield found


def with_unique_interfaces(point: Point) -> Point:
    """Returns a point that has each of its interfaces once."""
    first = {name: number for number, name in reversed(list(enumerate(point.interfaces)))}
    kept = sorted(first.values())
    places = [point.interface_places[number] for number in kept if number < len(point.interface_places)]
    return replace(point, interfaces=[point.interfaces[number] for number in kept], interface_places=places)


def split(point: Point) -> list[Point]:
    """Returns points of at most as many interfaces as a document's may have."""
    return [replace(point, name=point.name if not start else f"{point.name} {start // MOST_INTERFACES + 1}",
                    interfaces=point.interfaces[start:start + MOST_INTERFACES],
                    interface_places=point.interface_places[start:start + MOST_INTERFACES])
            for start in range(0, max(len(point.interfaces), 1), MOST_INTERFACES)]


def name_destinations(exporter: Exporter) -> None:
    """Names destinations anew that an exporter has twice: it sends each record to both."""
    names = list(numbered(one.name for one in exporter.destinations))
    exporter.destinations = [replace(one, name=name) for one, name in zip(exporter.destinations, names)]


def make_unique(device: Device) -> None:
    """Gives the parts of a device names that a document may have."""
    points = [part for point in device.points for part in split(with_unique_interfaces(point))]
    device.points = [replace(one, name=name) for one, name in zip(points, numbered(one.name for one in points))]
    for exporter in device.exporters:
        name_destinations(exporter)
    for listener, name in zip(device.listeners, list(numbered(one.name for one in device.listeners))):
        listener.name = name
