"""Writes the parts of a network: a folder for each, with its documents, and a manifest. Devices are kept or left out whole."""
from __future__ import annotations

import json
from dataclasses import dataclass
from pathlib import Path
from typing import Any, Mapping

from once_tools.model import Failed, Place
from once_tools.parts.loading import read_document
from once_tools.parts.packing import Contents, pack
from once_tools.parts.whole import MODULE, Device, Network, TrafficClass, bits, read_classes, read_network

Json = dict[str, Any]
MANIFEST, NETWORK, TRAFFIC = "manifest.json", "network.json", "traffic.json"


@dataclass(frozen=True)
class Part:
    """A part: its folder's name, its documents, and its entry of the manifest."""

    name: str
    network: Json
    traffic: Json
    entry: Json


def taken_in(part: Contents) -> dict[int, set[str]]:
    """Returns for each device the selection processes that may select a packet of the part's classes."""
    found: dict[int, set[str]] = {}
    for one in part.classes:
        for number, names in one.takers.items():
            found.setdefault(number, set()).update(names)
    return found


def with_processes(device: Device, names: set[str]) -> Json:
    """Returns a device with these selection processes alone."""
    entry: Json = device.entry.members()
    ipfix: Json = dict(entry["config"][MODULE])
    if "selectionProcess" in ipfix:
        ipfix["selectionProcess"] = [one for one in ipfix["selectionProcess"] if one["name"] in names]
    if "observationPoint" in ipfix:
        ipfix["observationPoint"] = [{**one, "selectionProcess": [it for it in one["selectionProcess"] if it in names]} if "selectionProcess" in one else one
                                     for one in ipfix["observationPoint"]]
    return {**entry, "config": {**entry["config"], MODULE: ipfix}}


def network_of(network: Network, part: Contents, filters: bool) -> Json:
    """Returns the network document of a part."""
    kept = [network.devices[number] for number in bits(part.mask)]
    taken = taken_in(part)
    devices = [with_processes(one, taken.get(one.number, set())) if filters else one.entry.members() for one in kept]
    links = [network.links[number].value for number in sorted(number for one in kept for number in one.links)]
    return {**network.root.members(), "devices": devices, "links": links}


def class_of(one: TrafficClass, mask: int) -> Json:
    """Returns a class of a part: crossings of devices that the part lacks go."""
    paths: list[list[Json]] = one.entry.members()["paths"]  # type: ignore[assignment]
    kept = [[entry for entry, crossing in zip(entries, path) if mask >> crossing.device.number & 1] for entries, path in zip(paths, one.paths)]
    return {**one.entry.members(), "paths": kept}


def entry_of(name: str, network: Network, part: Contents) -> Json:
    """Returns what the manifest says of a part."""
    classes = [{"name": one.name, "index": one.number} for one in part.classes]
    return {"folder": name, "sizes": part.sizes(), "classes": classes, "devices": [network.devices[number].name for number in bits(part.mask)]}


def write_json(path: Path, value: Mapping[str, object], indent: int | None = None) -> None:
    """Writes a document, on one line unless it is to be indented: `once` reads fewer octets so."""
    text = json.dumps(value, indent=indent, separators=(",", ": ") if indent else (",", ":"))
    path.write_text(text + "\n", encoding="utf-8")


def empty_folder(folder: Path) -> None:
    """Makes a folder; raises `Failed` if there is something in it."""
    if folder.exists() and (not folder.is_dir() or any(folder.iterdir())):
        raise Failed(Place(str(folder)), "is there already", "remove it, or name another folder")
    folder.mkdir(parents=True, exist_ok=True)


@dataclass(frozen=True)
class Sources:
    """What is cut, and where the parts go."""

    network: Path
    traffic: Path
    folder: Path
    filters: bool = False


def cut(sources: Sources) -> list[Contents]:
    """Writes the parts, and returns what they have. Raises `Unusable` if a document is malformed or a class exceeds a limit."""
    documents = read_document(sources.network), read_document(sources.traffic)
    network = read_network(documents[0])
    classes = read_classes(documents[1], network, sources.filters)
    parts = pack(network, classes)
    empty_folder(sources.folder)
    entries = []
    traffic = documents[1].root.members()
    for number, part in enumerate(parts, 1):
        name = f"{number:04d}"
        folder = sources.folder / name
        folder.mkdir()
        write_json(folder / NETWORK, network_of(network, part, sources.filters))
        write_json(folder / TRAFFIC, {**traffic, "classes": [class_of(one, part.mask) for one in part.classes]})
        entries.append(entry_of(name, network, part))
    whole = {"network": documents[0].digest, "traffic": documents[1].digest}
    write_json(sources.folder / MANIFEST, {"version": 1, "sha256": whole, "filters": sources.filters, "parts": entries}, 1)
    return parts
