"""Devices as values that are compared with the documents of samples."""
from __future__ import annotations

import json
from pathlib import Path
from typing import Any, Mapping

from once_tools.model import Device, Finding, Grade
from once_tools.readers import READERS
from once_tools.report import line_of
from once_tools.source import read_source

SAMPLES = Path(__file__).parent / "samples"
MISTAKES = Path(__file__).parent / "mistakes"


def read(kind: str, *paths: Path, options: Mapping[str, str] = {}) -> Device:
    """Returns the device that files describe."""
    return READERS[kind].read("device", [read_source(path) for path in paths], options)


def read_text(kind: str, text: str, options: Mapping[str, str] = {}, **others: str) -> Device:
    """Returns the device that a text describes; other texts are files by name, `_` in a name standing for `.`."""
    from once_tools.source import Source
    sources = [Source("config", text)] + [Source(name.replace("_", "."), other) for name, other in others.items()]
    return READERS[kind].read("device", sources, options)


def lines(device: Device, *grades: Grade) -> list[str]:
    """Returns the lines of a report about a device, of some grades or all."""
    return [line_of(one) for one in device.findings if not grades or one.grade in grades]


def finding(device: Device, words: str) -> Finding:
    """Returns the one finding whose line has these words."""
    found = [one for one in device.findings if words in line_of(one)]
    assert len(found) == 1, (words, lines(device))
    return found[0]


def shape(device: Device) -> dict[str, Any]:
    """Returns what a device meters, selects, keeps and exports."""
    return {
        "points": sorted((one.name, sorted(one.interfaces), one.direction.value, [each.name for each in one.selections])
                         for one in device.points),
        "selections": {each.name: (dict(each.match), each.cache) for one in device.points for each in one.selections},
        "caches": {one.name: (one.kind, [each.element for each in one.fields if each.is_key], one.exporters)
                   for one in device.caches},
        "exporters": {one.name: (one.mode, [(each.name, each.address, each.port) for each in one.destinations])
                      for one in device.exporters},
        "listeners": {one.name: one.forwards for one in device.listeners},
    }


def expected(path: Path, name: str) -> dict[str, Any]:
    """Returns the same of a device of a network document."""
    document = json.loads(path.read_text())
    config = next(one for one in document["devices"] if one["name"] == name)["config"]["ietf-ipfix-psamp:ipfix"]
    selections = {}
    for one in config.get("selectionProcess", []):
        match = {each["filterMatch"]["ieName"]: each["filterMatch"]["value"] for each in one["selector"]}
        selections[one["name"]] = (match, one["cache"])
    caches = {}
    for one in config.get("cache", []):
        kind = next(key for key in one if key.endswith("Cache"))
        keys = [each["ieName"] for each in one[kind]["cacheLayout"]["cacheField"] if "isFlowKey" in each]
        caches[one["name"]] = (kind.removesuffix("Cache"), keys, one["exportingProcess"])
    exporters = {}
    for one in config.get("exportingProcess", []):
        where = [(each["name"], each["udpExporter"]["destinationIPAddress"], each["udpExporter"]["destinationPort"])
                 for each in one["destination"]]
        exporters[one["name"]] = (one["exportMode"], where)
    points = sorted((one["name"], sorted(one["ifName"]), one["direction"], one["selectionProcess"])
                    for one in config.get("observationPoint", []))
    listeners = {one["name"]: one.get("exportingProcess", []) for one in config.get("collectingProcess", [])}
    return {"points": points, "selections": selections, "caches": caches, "exporters": exporters,
            "listeners": listeners}
