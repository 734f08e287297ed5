"""Reads the devices and collectors of a project by the readers of their kinds."""
from __future__ import annotations

from dataclasses import replace
from typing import Mapping

from once_tools.endpoints import Endpoint, endpoint_of
from once_tools.model import Device, Finding, Grade, Listener, Place, Unusable
from once_tools.project import CollectorEntry, DeviceEntry, Project
from once_tools.readers import ALIASES, READERS, Reader, reader_of
from once_tools.report import of_device
from once_tools.source import Source
from once_tools.toml_table import nearest

# Kinds of devices of which addresses and routes are read, but no meter.
PLAIN = ("linux", "frr", "host", "router")
SURE, APART = 50, 20


def scores(text: str) -> list[tuple[int, str]]:
    """Returns the kinds that a text may be of, the surest first."""
    return sorted(((reader.detect(text), kind) for kind, reader in READERS.items()), reverse=True)


def detected(sources: list[Source]) -> str:
    """Returns the kind of texts, "" if none is sure or two are near to each other."""
    found = [one for one in scores("\n".join(source.text for source in sources)) if one[0] > SURE]
    if not found or len(found) > 1 and found[0][0] - found[1][0] < APART:
        return ""
    return found[0][1]


def chosen_reader(kind: str, sources: list[Source], place: Place) -> Reader:
    """Returns the reader of a kind, or of what the texts are; raises `Unusable` if there is none."""
    if kind and kind != "?":
        reader = reader_of(kind)
        if reader is None:
            raise Unusable(place, f"no kind '{kind}'", nearest(kind, [*READERS, *ALIASES, *PLAIN]))
        return reader
    found = detected(sources)
    if not found:
        names = ", ".join(source.name for source in sources)
        near = [kind for score, kind in scores("\n".join(source.text for source in sources)) if score][:4]
        raise Unusable(place, f"the kind of {names} is not clear from the text",
                       f"write kind = \"..\", perhaps with one of {', '.join(near)} (see `once-import kinds`)" if near else
                       "write kind = \"..\" (see `once-import kinds`)")
    return READERS[found]


def read_by(reader: Reader, name: str, sources: list[Source], options: Mapping[str, str]) -> Device:
    """Returns what a reader makes of texts; how well the meaning of the kind's statements is established is reported."""
    device = reader.read(name, sources, options)
    place = Place(sources[0].name)
    if reader.certainty == "unsure":
        device.findings.append(Finding(
            Grade.PREMISE, place, f"how devices of kind {reader.kind} meter was read of the vendor's documents and not tried: an "
            "answer holds if they do as the report says", "compare totals with counters of the device, and its templates by "
            "`once-import template`"))
    elif reader.certainty == "fairly":
        device.findings.append(Finding(Grade.NOTE, place, f"how devices of kind {reader.kind} meter was read of the vendor's "
                                       "documents, and not tried on a device"))
    device.findings = of_device(device.findings, name)
    return device


def load_device(project: Project, entry: DeviceEntry) -> Device:
    """Returns the device of an entry; raises `Unusable`."""
    if not entry.config:
        if entry.kind in READERS or entry.kind in ALIASES:
            raise Unusable(entry.place, f"device '{entry.name}' has no configuration", "add config = \"FILE\"")
        if entry.kind and entry.kind not in PLAIN:
            raise Unusable(entry.place, f"no kind '{entry.kind}'", nearest(entry.kind, [*READERS, *PLAIN]))
        return Device(entry.name, entry.kind or "host", [])
    sources = project.sources(entry.config, entry.place)
    kind = entry.meter or ("" if entry.kind in PLAIN else entry.kind)
    return read_by(chosen_reader(kind, sources, entry.kind_place), entry.name, sources, entry.options)


def listener_of(entry: CollectorEntry, findings: list[Finding]) -> Listener:
    """Returns the collecting process of a collector that says where it listens."""
    ends: list[Endpoint] = []
    for text in entry.listen:
        end = endpoint_of(text)
        if end is None or not end.port:
            findings.append(Finding(Grade.WRONG, entry.place, f"'{text}' is no address with a port",
                                    "write \"192.0.2.10:4739\", \"[2001:db8::10]:4739\" or \"*:4739\""))
        elif end.address == "*":
            ends += [Endpoint(one, end.port, end.transport) for one in entry.addresses]
            if not entry.addresses:
                findings.append(Finding(Grade.WARNING, entry.place, f"'{text}' listens at all addresses of the collector, "
                                        "and none is known: no destination matches", "add addresses = [\"..\"]"))
        else:
            ends.append(end)
    first = ends[0] if ends else Endpoint("", 0)
    accepts = None if entry.accept_from is None else list(entry.accept_from)
    return Listener(f"{first.transport or 'udp'} {first.port}", [(one.address, one.port, one.transport) for one in ends],
                    entry.place, accepts)


def with_addresses(device: Device, addresses: tuple[str, ...]) -> Device:
    """Returns a collector whose listeners at all addresses listen at the given ones."""
    for listener in device.listeners:
        spread: list[tuple[str, int, str]] = []
        for address, port, transport in listener.listens:
            wild = address in ("*", "0.0.0.0", "::", "")
            spread += [(one, port, transport) for one in addresses] if wild and addresses else [(address, port, transport)]
        listener.listens = spread
    return device


def load_collector(project: Project, entry: CollectorEntry, findings: list[Finding]) -> Device:
    """Returns a collector as a device; raises `Unusable`."""
    if entry.config:
        sources = project.sources(entry.config, entry.place)
        device = read_by(chosen_reader(entry.kind, sources, entry.place), entry.name, sources, entry.options)
        device = with_addresses(device, entry.addresses)
        for listener in device.listeners:
            if entry.accept_from is not None:
                listener.accepts = list(entry.accept_from)
    else:
        device = Device(entry.name, "collector", [])
    if entry.listen:
        device.listeners.append(listener_of(entry, findings))
    return device


def load_devices(project: Project) -> tuple[list[Device], list[Device], list[Finding]]:
    """Returns the devices, the collectors, and what is wrong with either."""
    devices, collectors, findings = [], [], []
    for entry in project.devices:
        try:
            devices.append(load_device(project, entry))
        except Unusable as why:
            findings.append(replace(why.finding, device=entry.name))
    for collector in project.collectors:
        try:
            collectors.append(load_collector(project, collector, findings))
        except Unusable as why:
            findings.append(replace(why.finding, device=collector.name))
    return devices, collectors, findings
