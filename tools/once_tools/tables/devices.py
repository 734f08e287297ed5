"""The devices of a table, with configurations of the RFC 6728 module in the JSON encoding of RFC 7951."""
from __future__ import annotations

import fnmatch
from typing import Iterator

from once_tools import elements
from once_tools.tables import cells
from once_tools.tables.cells import Entry
from once_tools.tables.table import Faults, Row

MODULE = "ietf-ipfix-psamp:ipfix"
AGGREGATION = "once-audit:aggregation"
DIRECTIONS = ["ingress", "egress", "both"]
CACHES = ["immediate", "timeout", "natural", "permanent"]
MODES = ["parallel", "loadBalancing", "fallback"]
TRANSPORTS = ["tcp", "sctp", "udp"]
# The lists of a configuration, with the kind of row that adds to each.
LISTS = {"observationPoint": "observation-point", "selectionProcess": "selection-process", "cache": "cache",
         "exportingProcess": "exporting-process", "collectingProcess": "collecting-process"}


class Devices:
    """The devices by name, each with its lists, whose entries are found by name too."""

    def __init__(self, faults: Faults) -> None:
        self.faults = faults
        self.lists: dict[str, dict[str, dict[str, Entry]]] = {}
        self.references: list[tuple[Row, str, str]] = []

    def add(self, row: Row) -> None:
        """Adds the device of a row."""
        device = row.cells[0]
        if device in self.lists:
            self.faults.add(row.line, "there already is a device %s" % device, "give this one another name")
        elif cells.name(row, device, self.faults):
            self.lists[device] = {kind: {} for kind in LISTS}

    def meant(self, row: Row, cell: str) -> list[str]:
        """Returns the devices that a cell names, or matches by patterns such as edge-*."""
        found: list[str] = []
        for text in cells.listed(cell):
            fit = [text] if text in self.lists else fnmatch.filter(self.lists, text)
            if not fit:
                self.faults.add(row.line, "there is no device %s" % text, "add a row: device %s" % text)
            found += [device for device in fit if device not in found]
        return found

    def put(self, row: Row, kind: str, entry: Entry) -> None:
        """Adds a copy of an entry to a list of each device of a row."""
        if not cells.name(row, entry["name"], self.faults):
            return
        for device in self.meant(row, row.cells[0]):
            there = self.lists[device][kind]
            if entry["name"] in there:
                wrong = "%s already has a row %s %s" % (device, LISTS[kind], entry["name"])
                self.faults.add(row.line, wrong, "give this one another name")
            else:
                there[entry["name"]] = dict(entry)

    def refer(self, row: Row, kind: str, names: list[str]) -> None:
        """Remembers that a row names entries of a list, at each of its devices."""
        self.references += [(row, kind, name) for name in names]

    def look_up(self) -> None:
        """Adds a fault for each name that no entry has."""
        for row, kind, name in self.references:
            for device in self.meant(row, row.cells[0]):
                self.entry(row, device, kind, name)

    def entry(self, row: Row, device: str, kind: str, name: str) -> Entry | None:
        """Returns the entry of a device that a row names, or None after a fault."""
        there = self.lists.get(device, {}).get(kind, {})
        if name not in there:
            cure = "name one of these: " + ", ".join(there) if there else "add a row %s for it" % LISTS[kind]
            self.faults.add(row.line, "%s has no %s %s" % (device, LISTS[kind], name), cure)
        return there.get(name)

    def documents(self) -> Iterator[Entry]:
        """Yields the devices of the network document."""
        for device, lists in self.lists.items():
            ipfix = {kind: list(entries.values()) for kind, entries in lists.items() if entries}
            yield {"name": device, "config": {MODULE: ipfix}}


def observation_point(devices: Devices, row: Row) -> None:
    """Adds the observation point of a row."""
    _, name, interfaces, direction, processes = row.cells
    entry: Entry = {"name": name, "observationDomainId": 0, "ifName": cells.names(row, interfaces, devices.faults)}
    if not entry["ifName"]:
        devices.faults.add(row.line, "%s has no interface" % name, "name one or more")
    entry["direction"] = cells.word(row, direction, DIRECTIONS, "direction", devices.faults)
    entry["selectionProcess"] = cells.names(row, processes, devices.faults)
    devices.refer(row, "selectionProcess", entry["selectionProcess"])
    devices.put(row, "observationPoint", entry)


def selection_process(devices: Devices, row: Row) -> None:
    """Adds the selection process of a row."""
    _, name, filters, cache = row.cells
    selectors: list[Entry] = [{"name": "%d" % place, "filterMatch": match}
                 for place, match in enumerate(cells.filters(row, filters, devices.faults), 1)]
    if len(selectors) > 16:
        devices.faults.add(row.line, "%s has %d filters" % (name, len(selectors)), "write at most 16")
    entry: Entry = {"name": name, "selector": selectors or [{"name": "all", "selectAll": [None]}]}
    if cache != "-":
        entry["cache"] = cache
        devices.refer(row, "cache", [cache])
    devices.put(row, "selectionProcess", entry)


def cache(devices: Devices, row: Row) -> None:
    """Adds the cache of a row."""
    _, name, kind, key, exporters = row.cells
    word = cells.word(row, kind, CACHES, "kind of cache", devices.faults)
    fields = elements.cache_fields(cells.axes(row, key, devices.faults))
    entry: Entry = {"name": name, "%sCache" % word: {"cacheLayout": {"cacheField": fields}}}
    entry["exportingProcess"] = cells.names(row, exporters, devices.faults)
    devices.refer(row, "exportingProcess", entry["exportingProcess"])
    devices.put(row, "cache", entry)


def exporting_process(devices: Devices, row: Row) -> None:
    """Adds the exporting process of a row."""
    _, name, mode, destinations = row.cells
    entry: Entry = {"name": name, "exportMode": cells.word(row, mode, MODES, "mode", devices.faults), "destination": []}
    for text in cells.listed(destinations):
        destination, _, transport = text.rpartition(":")
        if transport not in TRANSPORTS:
            destination, transport = text, "tcp"
        if any(destination == other["name"] for other in entry["destination"]):
            devices.faults.add(row.line, "%s occurs twice" % destination, "take one of them out")
        elif cells.name(row, destination, devices.faults):
            entry["destination"].append({"name": destination, "%sExporter" % transport: {}})
    if not entry["destination"]:
        devices.faults.add(row.line, "%s has no destination" % name, "name one or more, as billing or billing:udp")
    devices.put(row, "exportingProcess", entry)


def collecting_process(devices: Devices, row: Row) -> None:
    """Adds the collecting process of a row."""
    _, name, exporters = row.cells
    entry: Entry = {"name": name}
    names = cells.names(row, exporters, devices.faults)
    if names:
        entry["exportingProcess"] = names
        devices.refer(row, "exportingProcess", names)
    devices.put(row, "collectingProcess", entry)


def aggregation(devices: Devices, row: Row) -> None:
    """Adds the aggregation of a row to its collecting process."""
    _, process, name, key, filters, exporters = row.cells
    entry: Entry = {"name": name, "key": cells.key(row, key, devices.faults)}
    matches = cells.filters(row, filters, devices.faults)
    if matches:
        entry["match"] = matches
    entry["exportingProcess"] = cells.names(row, exporters, devices.faults)
    devices.refer(row, "exportingProcess", entry["exportingProcess"])
    if not cells.name(row, name, devices.faults):
        return
    for device in devices.meant(row, row.cells[0]):
        holder = devices.entry(row, device, "collectingProcess", process)
        if holder is not None:
            there = holder.setdefault(AGGREGATION, [])
            if any(other["name"] == name for other in there):
                wrong = "%s already has an aggregation %s" % (process, name)
                devices.faults.add(row.line, wrong, "give this one another name")
            there.append(dict(entry))
