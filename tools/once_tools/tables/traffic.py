"""The traffic document of a table: its classes and paths."""
from __future__ import annotations

import itertools
from typing import Iterator

from once_tools.tables import cells
from once_tools.tables.cells import Entry
from once_tools.tables.devices import Devices
from once_tools.tables.table import Faults, Row

Crossing = tuple[str, list[str], str, str]

DIRECTIONS = ["ingress", "egress"]


def crossing_of(there: Devices, row: Row, text: str) -> Crossing | None:
    """Returns the device or pattern, the devices, the interface and the direction of DEVICE:INTERFACE:DIRECTION."""
    device, _, rest = text.partition(":")
    interface, _, direction = rest.rpartition(":")
    if not cells.is_name(interface):
        cure = "write DEVICE:INTERFACE:ingress or DEVICE:INTERFACE:egress"
        there.faults.add(row.line, "%s is not a crossing" % text, cure)
        return None
    if cells.word(row, direction, DIRECTIONS, "direction", there.faults) is None:
        return None
    return device, there.meant(row, device), interface, direction


def paths_of(there: Devices, row: Row) -> Iterator[list[Entry]]:
    """Yields the paths of a row, one for each device that a pattern matches. A pattern that occurs twice is one device."""
    found = [crossing_of(there, row, text) for text in cells.listed(row.cells[1])]
    crossings = [one for one in found if one is not None]
    if len(crossings) < len(found):
        return
    if len(crossings) > 32:
        there.faults.add(row.line, "the path has %d crossings" % len(crossings), "write at most 32")
    patterns = {crossing[0]: crossing[1] for crossing in crossings}
    for chosen in itertools.product(*patterns.values()):
        device_of = dict(zip(patterns, chosen))
        yield [{"device": device_of[pattern], "interface": interface, "direction": direction}
               for pattern, _, interface, direction in crossings]


def class_of(row: Row, faults: Faults) -> Entry:
    """Returns the class of a row, without its paths."""
    entry: Entry = {"name": row.cells[0], "region": cells.region(row, row.cells[1], faults), "paths": []}
    if len(row.cells) > 2:
        if cells.word(row, row.cells[2], ["exempt"], "mark", faults):
            entry["exempt"] = [None]
    return entry


def traffic_of(rows: list[Row], there: Devices) -> Entry | None:
    """Returns the traffic document of a table, or None if the table has no classes."""
    faults = there.faults
    classes: dict[str, Entry] = {}
    lines: dict[str, int] = {}
    for row in rows:
        if row.kind == "class":
            if row.cells[0] in classes:
                faults.add(row.line, "there already is a class %s" % row.cells[0], "give this one another name")
            elif cells.name(row, row.cells[0], faults):
                classes[row.cells[0]], lines[row.cells[0]] = class_of(row, faults), row.line
    ways = [row for row in rows if row.kind == "path"]
    for row in ways:
        if row.cells[0] not in classes:
            faults.add(row.line, "there is no class %s" % row.cells[0], "add a row: class %s REGION" % row.cells[0])
        else:
            classes[row.cells[0]]["paths"] += paths_of(there, row)
    for name, entry in classes.items():
        if all(row.cells[0] != name for row in ways):
            faults.add(lines[name], "class %s has no path" % name, "add a row: path %s CROSSINGS (- for none)" % name)
        if len(entry["paths"]) > 16:
            wrong = "class %s has %d paths" % (name, len(entry["paths"]))
            faults.add(lines[name], wrong, "cut it into classes of at most 16 each")
    return {"classes": list(classes.values())} if classes else None
