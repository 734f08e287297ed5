"""Where each part of a device's configuration was read from, kept in the document beside the module.

The member has the files, and for a JSON Pointer below the module the number of a file, a line and the line's words; and
for the interfaces by their names.
"""
from __future__ import annotations

from once_tools.model import Device, Place, Selection

ORIGIN = "once-import:origin"
AGGREGATION = "once-audit:aggregation"


def places_of(device: Device, selections: list[Selection]) -> dict[str, Place]:
    """Returns the places of all parts by their pointers."""
    found: dict[str, Place] = {}
    for number, point in enumerate(device.points):
        found[f"/observationPoint/{number}"] = point.place
        for at, place in enumerate(point.interface_places):
            found[f"/observationPoint/{number}/ifName/{at}"] = place
    for number, selection in enumerate(selections):
        found[f"/selectionProcess/{number}"] = selection.place
    for number, cache in enumerate(device.caches):
        found[f"/cache/{number}"] = cache.place
    for number, exporter in enumerate(device.exporters):
        found[f"/exportingProcess/{number}"] = exporter.place
        for at, to in enumerate(exporter.destinations):
            found[f"/exportingProcess/{number}/destination/{at}"] = to.place
    for number, listener in enumerate(device.listeners):
        found[f"/collectingProcess/{number}"] = listener.place
        for at, one in enumerate(listener.aggregations):
            found[f"/collectingProcess/{number}/{AGGREGATION}/{at}"] = one.place
    return found


def origin_of(device: Device, selections: list[Selection]) -> dict[str, object]:
    """Returns the member of a device, empty if nothing was read from files."""
    places = places_of(device, selections)
    interfaces = {one.name: one.place for one in device.interfaces if one.place.line}
    files = list(dict.fromkeys([*device.files, *(one.file for one in [*places.values(), *interfaces.values()] if one.file)]))

    def entry(place: Place) -> list[object]:
        return [files.index(place.file), place.line, place.text]

    found: dict[str, object] = {"files": files}
    if interfaces:
        found["interfaces"] = {name: entry(place) for name, place in interfaces.items()}
    found |= {pointer: entry(place) for pointer, place in places.items() if place.file}
    return found if len(found) > 1 else {}
