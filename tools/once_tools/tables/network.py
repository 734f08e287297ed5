"""The links and the report of a table, and the network document."""
from __future__ import annotations

from typing import Iterator

from once_tools.tables import cells, devices
from once_tools.tables.cells import Entry
from once_tools.tables.table import Faults, Row

ROWS = {
    "observation-point": devices.observation_point,
    "selection-process": devices.selection_process,
    "cache": devices.cache,
    "exporting-process": devices.exporting_process,
    "collecting-process": devices.collecting_process,
    "aggregation": devices.aggregation,
}


def links_of(there: devices.Devices, row: Row, taken: dict[tuple[str, str, str], int]) -> Iterator[Entry]:
    """Yields the links of a row, one for each device at which it begins; `taken` remembers the destinations that have one."""
    _, exporter, destination, to_device, to_process = row.cells
    if to_device not in there.lists:
        there.faults.add(row.line, "there is no device %s" % to_device, "add a row: device %s" % to_device)
    else:
        there.entry(row, to_device, "collectingProcess", to_process)
    for device in there.meant(row, row.cells[0]):
        entry = there.entry(row, device, "exportingProcess", exporter)
        names = [one["name"] for one in entry["destination"]] if entry else []
        if entry and destination not in names:
            there.faults.add(row.line, "%s of %s has no destination %s" % (exporter, device, destination),
                             "name one of these: " + ", ".join(names))
        start = (device, exporter, destination)
        if start in taken:
            wrong = "destination %s of %s already has the link of line %d" % (destination, device, taken[start])
            there.faults.add(row.line, wrong, "add a destination for each link")
        taken.setdefault(start, row.line)
        yield {"device": device, "exportingProcess": exporter, "destination": destination,
               "toDevice": to_device, "toProcess": to_process}


def report_of(there: devices.Devices, rows: list[Row]) -> Entry | None:
    """Returns the report of the one row of this kind."""
    if not rows:
        there.faults.add(1, "the table has no row report", "add a row: report DEVICE COLLECTING-PROCESS KEY")
        return None
    for row in rows[1:]:
        there.faults.add(row.line, "line %d already has the report" % rows[0].line, "take one of them out")
    device, process, key = rows[0].cells
    if device not in there.lists:
        there.faults.add(rows[0].line, "there is no device %s" % device, "add a row: device %s" % device)
    else:
        there.entry(rows[0], device, "collectingProcess", process)
    return {"device": device, "collectingProcess": process, "key": cells.key(rows[0], key, there.faults)}


def network_of(rows: list[Row], faults: Faults) -> tuple[Entry, devices.Devices]:
    """Returns the network document of a table, and its devices; what is wrong is added to the faults."""
    there = devices.Devices(faults)
    for row in rows:
        if row.kind == "device":
            there.add(row)
    for kind, put in ROWS.items():
        for row in rows:
            if row.kind == kind:
                put(there, row)
    there.look_up()
    taken: dict[tuple[str, str, str], int] = {}
    links = [link for row in rows if row.kind == "link" for link in links_of(there, row, taken)]
    report = report_of(there, [row for row in rows if row.kind == "report"])
    return {"devices": list(there.documents()), "links": links, "report": report}, there
