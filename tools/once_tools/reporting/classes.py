"""The declared classes, their paths, and where a certificate says that their packets are counted."""
from __future__ import annotations

from collections import Counter
from dataclasses import dataclass

from once_tools.elements import AXES
from once_tools.network_view import Json, entries, table
from once_tools.reporting.alike import Counted, Crossing, PathRow, folded
from once_tools.since import Leaf, leaves_in, names_of_leaf

# What each axis is called in a sentence.
WORDS = {"sourceIPv4Address": "IPv4 source", "destinationIPv4Address": "IPv4 destination", "protocolIdentifier": "protocol",
         "sourceTransportPort": "source port", "destinationTransportPort": "destination port", "ipClassOfService": "class of service",
         "ipVersion": "IP version", "sourceIPv6Address": "IPv6 source", "destinationIPv6Address": "IPv6 destination"}


@dataclass(frozen=True)
class ClassRow:
    """A class of packets, in words."""

    number: int
    name: str
    region: str
    is_exempt: bool
    paths: tuple[PathRow, ...]

    @property
    def is_folded(self) -> bool:
        """Returns whether some row is that of several paths."""
        return any(not one.numbers.isdigit() for one in self.paths)


def region_words(region: Json) -> str:
    """Returns a region in words."""
    said = [f"{WORDS[axis]} {str(region[axis]).replace('-', ' to ')}" for axis in AXES if axis in region]
    return ", ".join(said) or "all packets"


def crossing_of(entry: Json) -> Crossing:
    """Returns a crossing of a declaration."""
    return Crossing(*(str(entry.get(name, "")) for name in ("device", "interface", "direction")))


def paths_of(one: Json) -> list[list[Json]]:
    """Returns the paths of a class."""
    paths = one.get("paths")
    return [entries(path) for path in paths] if isinstance(paths, list) else []


def devices_crossed(traffic: Json) -> dict[tuple[int, int], set[str]]:
    """Returns the devices that each path crosses, by the numbers of its class and of itself."""
    classes = enumerate(entries(traffic.get("classes")), 1)
    return {(number, at): {str(one.get("device", "")) for one in path} for number, found in classes for at, path in enumerate(paths_of(found), 1)}


def counted_at(network: Json, path: list[Json], leaf: Leaf, leaves: int) -> Counted:
    """Returns where the packets of a leaf are counted."""
    crossing = crossing_of(path[leaf.crossing - 1])
    point, process = names_of_leaf(network, crossing.device, leaf.point, leaf.process)
    return Counted(leaf.crossing, crossing.device, crossing.interface, crossing.direction, point, process, leaves)


def path_row(network: Json, number: int, path: list[Json], leaves: dict[Leaf, int]) -> PathRow:
    """Returns a path with where its packets are counted, in the order of the crossings."""
    order = sorted(leaves, key=lambda leaf: (leaf.crossing, leaf.point, leaf.process))
    counted = tuple(counted_at(network, path, leaf, leaves[leaf]) for leaf in order if leaf.crossing)
    return PathRow(str(number), tuple(map(crossing_of, path)), counted, sum(leaves[leaf] for leaf in order if not leaf.crossing))


def classes_in(network: Json, traffic: Json, certificate: str = "") -> list[ClassRow]:
    """Returns the classes of a declaration, with where a certificate says that their packets are counted."""
    found: dict[tuple[int, int], dict[Leaf, int]] = {}
    for leaf, leaves in Counter(leaves_in(certificate)).items():
        found.setdefault((leaf.number, leaf.path), {})[leaf] = leaves
    rows = []
    for number, one in enumerate(entries(traffic.get("classes")), 1):
        paths = folded(path_row(network, at, path, found.get((number, at), {})) for at, path in enumerate(paths_of(one), 1))
        rows.append(ClassRow(number, str(one.get("name", "")), region_words(table(one.get("region"))), "exempt" in one, paths))
    return rows
