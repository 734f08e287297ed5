"""A network document, asked what becomes of a packet: where it is metered, and how its records reach the report."""
from __future__ import annotations

import ipaddress
from dataclasses import dataclass, field
from typing import Iterator, Mapping, Sequence

from once_tools.elements import PREFIXES, axis_of, number_of
from once_tools.keys import KeyField, missing
from once_tools.model import Place
from once_tools.origin import AGGREGATION, ORIGIN
from once_tools.report import where

Json = Mapping[str, object]
MODULE = "ietf-ipfix-psamp:ipfix"


def entries(value: object) -> list[Json]:
    """Returns the objects of a list; anything else has none."""
    return [one for one in value if isinstance(one, dict)] if isinstance(value, list) else []


def texts(value: object) -> list[str]:
    """Returns the texts of a list."""
    return [one for one in value if isinstance(one, str)] if isinstance(value, list) else []


def table(value: object) -> Json:
    """Returns an object; anything else is an empty one."""
    return value if isinstance(value, dict) else {}


class DeviceView:
    """A device of a network document, with the places that it keeps."""

    def __init__(self, entry: Json) -> None:
        self.name = str(entry.get("name", ""))
        config = table(entry.get("config"))
        self.ipfix = table(config.get(MODULE))
        self.origin = table(config.get(ORIGIN))

    def list(self, kind: str) -> list[Json]:
        """Returns a list of the configuration."""
        return entries(self.ipfix.get(kind))

    def find(self, kind: str, name: object) -> tuple[int, Json] | None:
        """Returns an entry of a list by its name, with its number from 0."""
        return next(((number, one) for number, one in enumerate(self.list(kind)) if one.get("name") == name), None)

    def _placed(self, value: object) -> Place | None:
        if isinstance(value, list) and len(value) >= 2 and isinstance(value[0], int) and isinstance(value[1], int):
            files = texts(self.origin.get("files"))
            file = files[value[0]] if 0 <= value[0] < len(files) else ""
            return Place(file, value[1], str(value[2]) if len(value) > 2 else "")
        return None

    def place(self, pointer: str) -> Place:
        """Returns the place of a part, or of what it is part of."""
        while pointer:
            found = self._placed(self.origin.get(pointer))
            if found:
                return found
            pointer = pointer.rpartition("/")[0]
        return Place("")

    def interface_place(self, name: str) -> Place:
        """Returns the place of an interface, an empty one if it is not known."""
        return self._placed(table(self.origin.get("interfaces")).get(name)) or Place("")

    def meters(self, direction: str) -> bool:
        """Returns whether the device has a point of this direction."""
        return any(one.get("direction", "both") in ("both", direction) for one in self.list("observationPoint"))

    def named(self, pointer: str) -> str:
        """Returns the name of the entry of a list that a pointer is in."""
        parts = pointer.split("/")
        there = self.list(parts[1]) if len(parts) > 2 and parts[2].isdigit() else []
        return str(there[int(parts[2])].get("name", "")) if len(parts) > 2 and int(parts[2]) < len(there) else pointer

    def describe(self, pointer: str) -> str:
        """Returns `FILE:LINE: 'WORDS'`, with the entry's name if the line is not known."""
        place = self.place(pointer)
        if place.text:
            return f"{where(place)}: '{place.text}'"
        return f"{where(place) or self.name} ({self.named(pointer)})"


@dataclass
class Sighting:
    """A selection process that takes a packet at a crossing, and in how many ways its record reaches the report."""

    device: DeviceView
    crossing: int
    interface: str
    direction: str
    point: int
    at: int
    process: int
    cache: int | None
    ways: int = 0
    unassigned: int = 0
    unread: list[str] = field(default_factory=list)
    lost: list[str] = field(default_factory=list)

    @property
    def pointer(self) -> str:
        """Returns the pointer of the interface of the point."""
        return f"/observationPoint/{self.point}/ifName/{self.at}"

    @property
    def taken_by(self) -> str:
        """Returns the pointer of the selection process."""
        return f"/selectionProcess/{self.process}"


def passes(match: Json, packet: Mapping[str, str]) -> bool:
    """Returns whether a packet passes a filterMatch."""
    element, value = str(match.get("ieName", "")), str(match.get("value", ""))
    axis = axis_of(element)
    if axis not in packet:
        return False
    number = number_of(axis, packet[axis])
    if element in PREFIXES:
        try:
            net = ipaddress.ip_network(value, strict=False)
        except ValueError:
            return False
        return number is not None and int(net.network_address) <= number <= int(net.broadcast_address)
    return number is not None and number == number_of(axis, value)


def selects(process: Json, packet: Mapping[str, str]) -> bool:
    """Returns whether a selection process selects a packet."""
    return all("selectAll" in one or passes(table(one.get("filterMatch")), packet) for one in entries(process.get("selector")))


def key_fields(value: object) -> list[KeyField]:
    """Returns the fields of a key of a document."""
    found: list[KeyField] = []
    for one in entries(value):
        length = one.get("prefixLength")
        found.append((str(one.get("ieName", "")), length if isinstance(length, int) else None))
    return found


def record_fields(cache: Json) -> list[KeyField]:
    """Returns the fields of a cache's records that can be distinguished by."""
    for kind, value in cache.items():
        layout = table(table(value).get("cacheLayout"))
        if layout:
            return [(str(one.get("ieName", "")), None) for one in entries(layout.get("cacheField"))
                    if "isFlowKey" in one or kind == "immediateCache"]
    return []


class NetworkView:
    """A network document, asked what becomes of a packet."""

    def __init__(self, document: Json) -> None:
        self.devices = [DeviceView(one) for one in entries(document.get("devices"))]
        self.links = entries(document.get("links"))
        self.report = table(document.get("report"))
        self.key = key_fields(self.report.get("key"))

    def sightings(self, path: Sequence[Json], packet: Mapping[str, str]) -> list[Sighting]:
        """Returns the selection processes that take a packet on its path."""
        found = []
        for number, crossing in enumerate(path, 1):
            for device in self.devices:
                if device.name == crossing.get("device"):
                    found += list(self.at_crossing(device, number, crossing, packet))
        return found

    def at_crossing(self, device: DeviceView, number: int, crossing: Json, packet: Mapping[str, str]) -> Iterator[Sighting]:
        """Yields the selection processes that take a packet at a crossing."""
        interface, direction = str(crossing.get("interface")), str(crossing.get("direction"))
        for at, point in enumerate(device.list("observationPoint")):
            names = texts(point.get("ifName"))
            if interface not in names or point.get("direction", "both") not in ("both", direction):
                continue
            for name in texts(point.get("selectionProcess")):
                process = device.find("selectionProcess", name)
                if process and "cache" in process[1] and selects(process[1], packet):
                    cache = device.find("cache", process[1]["cache"])
                    yield Sighting(device, number, interface, direction, at, names.index(interface), process[0],
                                   cache[0] if cache else None)

    def follow(self, sighting: Sighting, choices: Sequence[int]) -> None:
        """Counts in how many ways the record of a sighting reaches the report, and where else it goes."""
        if sighting.cache is None:
            return
        cache = sighting.device.list("cache")[sighting.cache]
        key, left = record_fields(cache), list(choices)
        names = texts(cache.get("exportingProcess"))
        if not names:
            sighting.lost.append(f"{sighting.device.describe(f'/cache/{sighting.cache}')} has no exporter")
        for name in names:
            self.send(sighting, sighting.device, name, key, (sighting.device, f"/cache/{sighting.cache}"), left)

    def send(self, sighting: Sighting, device: DeviceView, name: str, key: list[KeyField], made: tuple[DeviceView, str],
             choices: list[int]) -> None:
        """Follows a record from an exporter; `made` is the device and the pointer of what made the record."""
        there = device.find("exportingProcess", name)
        if there is None:
            return
        targets = list(enumerate(entries(there[1].get("destination"))))
        if there[1].get("exportMode", "parallel") != "parallel" and targets:
            chosen = choices.pop(0) if choices else 1
            targets = [one for one in targets if one[0] == chosen - 1]
        for number, target in targets:
            link = next((one for one in self.links if one.get("device") == device.name and one.get("exportingProcess") == name
                         and one.get("destination") == target.get("name")), None)
            pointer = f"/exportingProcess/{there[0]}/destination/{number}"
            if link is None:
                sighting.lost.append(f"{device.describe(pointer)} is no collector of the network")
            else:
                self.receive(sighting, link, key, made, device.describe(pointer))

    def receive(self, sighting: Sighting, link: Json, key: list[KeyField], made: tuple[DeviceView, str], sent: str) -> None:
        """Follows a record into a collecting process."""
        device = next((one for one in self.devices if one.name == link.get("toDevice")), None)
        process = device.find("collectingProcess", link.get("toProcess")) if device else None
        if device is None or process is None:
            return
        arrived = (device.name, process[1].get("name")) == (self.report.get("device"), self.report.get("collectingProcess"))
        if arrived and missing(self.key, key):
            sighting.unassigned += 1
            sighting.unread.append(made[0].describe(made[1]))
        elif arrived:
            sighting.ways += 1
        onward = texts(process[1].get("exportingProcess"))
        sums = entries(process[1].get(AGGREGATION))
        if not arrived and not onward and not sums:
            sighting.lost.append(f"{sent} leads to {device.name}, from which nothing reaches the report")
        for name in onward:
            self.send(sighting, device, name, key, made, [])
        for number, one in enumerate(sums):
            pointer = f"/collectingProcess/{process[0]}/{AGGREGATION}/{number}"
            if not missing(key_fields(one.get("key")), key):
                for name in texts(one.get("exportingProcess")):
                    self.send(sighting, device, name, key_fields(one.get("key")), (device, pointer), [])
