"""Interfaces that are metered for the report and that no declared traffic crosses."""
from __future__ import annotations

from once_tools.model import Crossing, Direction, Finding, Grade, Place, Point, TrafficClass
from once_tools.network import Network, is_leading, leading_exporters
from once_tools.versions import versions_of


def directions(direction: Direction) -> list[Direction]:
    """Returns the directions that a point sees."""
    return [Direction.INGRESS, Direction.EGRESS] if direction is Direction.BOTH else [direction]


def versions_metered(point: Point) -> set[int]:
    """Returns the versions of IP of the packets that a point's selection processes take."""
    found: set[int] = set()
    for one in point.selections:
        found |= {int(one.match["ipVersion"])} if "ipVersion" in one.match else {4, 6}
    return found


def crossings_of(classes: list[TrafficClass]) -> dict[Crossing, set[int]]:
    """Returns the crossings of the declared paths, with the versions of IP of the packets that make them."""
    found: dict[Crossing, set[int]] = {}
    for one in classes:
        versions = versions_of(one)
        for path in one.paths:
            for crossing in path:
                found.setdefault(crossing, set()).update(versions)
    return found


def uncrossed(network: Network, classes: list[TrafficClass]) -> list[Finding]:
    """Returns a note for each metered interface that no declared path crosses in the point's direction, or none of packets
    of a version of IP that the point takes."""
    crossed = crossings_of(classes)
    leading, found = leading_exporters(network), {}
    for device in network.devices:
        for point in device.points:
            if not is_leading(device, point, leading):
                continue
            taken, ways = versions_metered(point), directions(point.direction)
            for number, name in enumerate(point.interfaces):
                seen = {version for one in ways for version in crossed.get(Crossing(device.name, name, one), set())}
                if not seen & taken:
                    place = point.interface_places[number] if number < len(point.interface_places) else point.place
                    version = f" of IPv{min(taken)}" if seen and taken else ""
                    found[(device.name, name, version)] = (place, point.direction)
    return [finding(device, name, version, place, direction) for (device, name, version), (place, direction) in found.items()]


def finding(device: str, name: str, version: str, place: Place, direction: Direction) -> Finding:
    """Returns the note about an interface; `version` is ` of IPv6` where other packets do cross it."""
    way = {Direction.INGRESS: "comes in", Direction.EGRESS: "leaves"}.get(direction, "comes in or leaves")
    return Finding(Grade.NOTE, place, f"{device} {name} is metered for the report, and no declared traffic{version} {way} there: "
                   f"an answer says nothing about its packets{version}", "declare traffic that crosses it", device=device)
