"""Changes of a network or traffic document that may mend a wrong count, and the refuted packet that they are made for."""
from __future__ import annotations

from dataclasses import dataclass
from typing import Iterator

from once_tools.answers import Refutation
from once_tools.keys import KeyField
from once_tools.mending.patches import Document, Operation
from once_tools.model import Place
from once_tools.network_view import MODULE, DeviceView, Json, NetworkView, Sighting, entries

# How likely an operator is to choose a kind of change: candidates of less weight are tried first.
LINK, FIELD_LENGTH, DIRECTION, KEY_FIELD, FILTER, POINT, INTERFACE, FORWARD, DESTINATION, MODE, METER, REPORT_KEY, EXEMPT = \
    4, 5, 6, 7, 9, 10, 10, 11, 12, 14, 25, 35, 40


@dataclass(frozen=True)
class Change:
    """A change in a sentence, its operations on the two documents, and the line of a configuration that it changes."""

    says: str
    weight: int
    network: tuple[Operation, ...] = ()
    traffic: tuple[Operation, ...] = ()
    place: Place = Place("")


class Case:
    """A packet that is counted wrongly, where it is metered, and what becomes of its records."""

    def __init__(self, network: Document, traffic: Document, refutation: Refutation) -> None:
        self.network, self.traffic, self.refutation = network, traffic, refutation
        self.view = NetworkView(network)
        classes = entries(traffic.get("classes"))
        self.one: Json = classes[refutation.number_of_class - 1]
        paths = self.one.get("paths")
        self.path = entries(paths[refutation.path - 1]) if isinstance(paths, list) else []
        self.packet = refutation.packet
        self.sightings = self.view.sightings(self.path, self.packet)
        for each in self.sightings:
            self.view.follow(each, self.choices_of(each))

    @property
    def name(self) -> str:
        return str(self.one.get("name", ""))

    @property
    def is_exempt(self) -> bool:
        return "exempt" in self.one

    @property
    def class_pointer(self) -> str:
        return f"/classes/{self.refutation.number_of_class - 1}"

    @property
    def counted(self) -> list[Sighting]:
        """Returns where the packet is metered with records that reach the report."""
        return [one for one in self.sightings if one.ways or one.unassigned]

    def number_of(self, device: DeviceView) -> int:
        return self.view.devices.index(device)

    def pointer(self, device: DeviceView, inside: str) -> str:
        """Returns the pointer in the network of a part of a device's configuration."""
        return f"/devices/{self.number_of(device)}/config/{MODULE}{inside}"

    def choices_of(self, sighting: Sighting) -> list[int]:
        return self.refutation.choices.get((self.number_of(sighting.device) + 1, (sighting.cache or 0) + 1), [])

    def device(self, name: object) -> DeviceView | None:
        return next((one for one in self.view.devices if one.name == name), None)

    def crossings(self) -> Iterator[tuple[DeviceView, str, str]]:
        """Yields the crossings of the path whose devices the network has: device, interface, direction."""
        for one in self.path:
            device = self.device(one.get("device"))
            if device:
                yield device, str(one.get("interface")), str(one.get("direction"))

    def report_key(self) -> list[KeyField]:
        return self.view.key


def quoted(name: object) -> str:
    return f'"{name}"'


def free_name(entries_there: list[Json], wanted: str) -> str:
    """Returns a name that no entry has: the wanted one, or with a number after it."""
    taken = {str(one.get("name")) for one in entries_there}
    names = [wanted, *(f"{wanted} {number}" for number in range(2, len(taken) + 3))]
    return next(one for one in names if one not in taken)


def appended(case: Case, device: DeviceView, kind: str, entry: Document) -> Operation:
    """Returns the operation that appends an entry to a list of a device's configuration, which may be missing."""
    there = case.pointer(device, f"/{kind}")
    return Operation("add", f"{there}/-", entry) if kind in device.ipfix else Operation("add", there, [entry])
