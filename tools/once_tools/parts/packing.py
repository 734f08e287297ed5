"""Which classes share a part: those that touch the same devices, then those with the fewest further devices while the limits allow it."""
from __future__ import annotations

import heapq
from dataclasses import dataclass, field
from typing import Iterator

from once_tools.parts.regions import Layout
from once_tools.parts.whole import Network, TrafficClass, bits

# The limits of `once` (docs/FORMATS.md): what a part may have at most.
LIMITS = {"devices": 64, "collecting processes": 256, "links": 1024, "layouts": 64, "classes": 256}
# The limits of a class in any document.
PATHS, CROSSINGS = 16, 32


@dataclass
class Contents:
    """What a part has: devices as bits, and what they add up to."""

    mask: int = 0
    processes: int = 0
    links: int = 0
    layouts: frozenset[Layout] = frozenset()
    classes: list[TrafficClass] = field(default_factory=list)

    def sizes(self) -> dict[str, int]:
        """Returns what the limits are about."""
        return {"devices": self.mask.bit_count(), "collecting processes": self.processes, "links": self.links, "layouts": len(self.layouts),
                "classes": len(self.classes)}


def joined(network: Network, part: Contents, mask: int, classes: list[TrafficClass]) -> Contents:
    """Returns a part with further devices and classes."""
    added = [network.devices[number] for number in bits(mask & ~part.mask)]
    return Contents(part.mask | mask, part.processes + sum(one.processes for one in added), part.links + sum(len(one.links) for one in added),
                    part.layouts.union(*(one.layouts for one in added)), part.classes + classes)


def excess(part: Contents) -> tuple[str, int, int] | None:
    """Returns the first limit that a part exceeds, with what it has and what is allowed."""
    return next(((name, size, LIMITS[name]) for name, size in part.sizes().items() if size > LIMITS[name]), None)


@dataclass(frozen=True)
class Group:
    """At most 256 classes that touch the same devices."""

    number: int
    mask: int
    classes: list[TrafficClass]


def check_class(network: Network, one: TrafficClass) -> None:
    """Raises `Unusable` if a class fits into no part."""
    if not one.paths:
        raise one.entry.wrong(f"class '{one.name}' has no path", "name the crossings that its packets make, or [] if they pass no meter")
    found = excess(joined(network, Contents(layouts=frozenset([network.layout])), one.mask, [one]))
    longest = max((len(path) for path in one.paths), default=0)
    if found is None and len(one.paths) > PATHS:
        found = "paths", len(one.paths), PATHS
    if found is None and longest > CROSSINGS:
        found = "crossings of a path", longest, CROSSINGS
    if found:
        name, size, limit = found
        raise one.entry.wrong(f"class '{one.name}' alone exceeds a limit of `once`: a part with it has {size} {name}, {limit} are allowed",
                              "declare fewer paths for it, or cut its region into several classes")


def groups_of(network: Network, classes: list[TrafficClass]) -> list[Group]:
    """Returns the classes by the devices that they touch, in the order of their first classes."""
    alike: dict[int, list[TrafficClass]] = {}
    for one in classes:
        check_class(network, one)
        alike.setdefault(one.mask, []).append(one)
    most = LIMITS["classes"]
    chunks = [(mask, found[at:at + most]) for mask, found in alike.items() for at in range(0, len(found), most)]
    chunks.sort(key=lambda chunk: chunk[1][0].number)
    return [Group(number, mask, found) for number, (mask, found) in enumerate(chunks)]


class Packer:
    """Fills one part after another. Groups that share devices with the part wait in a heap by how many devices they would add."""

    def __init__(self, network: Network, groups: list[Group]) -> None:
        self.network = network
        self.waiting = {one.number: one for one in groups}
        self.common = network.report.reach
        self.users: dict[int, list[Group]] = {}
        for one in groups:
            for number in bits(one.mask & ~self.common):
                self.users.setdefault(number, []).append(one)
        self.heap: list[tuple[int, int]] = []
        self.part = Contents()

    def parts(self) -> Iterator[Contents]:
        """Yields the parts."""
        while self.waiting:
            self.part, self.heap = Contents(layouts=frozenset([self.network.layout])), []
            for number in list(self.waiting):
                self.take(number)
                self.take_neighbours()
            yield self.part

    def take(self, number: int) -> None:
        """Puts a group into the part if it still waits and the limits allow it."""
        group = self.waiting.get(number)
        if group is None or len(self.part.classes) + len(group.classes) > LIMITS["classes"] or (self.part.mask | group.mask).bit_count() > LIMITS["devices"]:
            return
        grown = joined(self.network, self.part, group.mask, group.classes)
        if excess(grown):
            return
        gained = group.mask & ~self.part.mask & ~self.common
        self.part = grown
        del self.waiting[number]
        for device in bits(gained):
            for other in self.users[device]:
                if other.number in self.waiting:
                    heapq.heappush(self.heap, (self.added(other), other.number))

    def added(self, group: Group) -> int:
        """Returns how many devices a group would add."""
        return (group.mask & ~self.part.mask).bit_count()

    def take_neighbours(self) -> None:
        """Puts groups that share devices with the part into it, those that add the fewest devices first."""
        while self.heap:
            self.take(heapq.heappop(self.heap)[1])


def pack(network: Network, classes: list[TrafficClass]) -> list[Contents]:
    """Returns the parts, each with its classes in their order. Raises `Unusable` if a class alone exceeds a limit."""
    parts = list(Packer(network, groups_of(network, classes)).parts())
    for one in parts:
        one.classes.sort(key=lambda it: it.number)
    return parts
