"""`once-import show PROJECT DEVICE`: what was read of one device, with lines."""
from __future__ import annotations

import argparse
from pathlib import Path
from typing import Iterator

from once_tools.commands.options import Subparsers
from once_tools.load import load_devices
from once_tools.model import Device, Finding, Place, Unusable
from once_tools.project import read_project
from once_tools.report import Report, where
from once_tools.toml_table import nearest

NAME = "show"
Row = tuple[Place, str, str]


def add_parser(subparsers: Subparsers) -> None:
    """Adds the command."""
    parser = subparsers.add_parser(NAME, help="print what was read of one device, with the lines it was read from")
    parser.add_argument("project", metavar="PROJECT", type=Path)
    parser.add_argument("device", metavar="DEVICE")
    parser.set_defaults(run=run)


def rows_of(device: Device) -> Iterator[Row]:
    """Yields what was read: the place, the kind of thing, what is known of it."""
    for interface in device.interfaces:
        known = [*interface.addresses, f"vrf {interface.vrf}" if interface.vrf else "", interface.description,
                 "shut" if interface.is_shut else ""]
        yield interface.place, f"interface {interface.name}", ", ".join(one for one in known if one)
    for point in device.points:
        names = [one.name for one in point.selections]
        shown = ", ".join(names[:4]) + (f" and {len(names) - 4} more" if len(names) > 4 else "")
        sampled = ", sampled" if point.sampling else ""
        yield point.place, f"observation point {point.name}", (f"{point.direction.value} at {', '.join(point.interfaces)}; "
                                                               f"{shown}{sampled}")
    for cache in device.caches:
        keys = ", ".join(one.element for one in cache.fields if one.is_key)
        yield cache.place, f"{cache.kind} cache {cache.name}", f"by {keys or 'no axis'}; to {', '.join(cache.exporters) or '-'}"
    for exporter in device.exporters:
        ends = ", ".join(f"{one.name}/{one.transport}" for one in exporter.destinations)
        yield exporter.place, f"exporter {exporter.name}", f"{exporter.mode}: {ends}"
    for listener in device.listeners:
        ends = ", ".join(f"{address}:{port}" for address, port, _ in listener.listens)
        yield listener.place, f"collecting process {listener.name}", f"{ends}; forwards to {', '.join(listener.forwards) or '-'}"


def run(arguments: argparse.Namespace) -> int:
    """Prints the rows, then the findings of the device."""
    project = read_project(arguments.project)
    devices, collectors, findings = load_devices(project)
    names = [one.name for one in project.devices] + [one.name for one in project.collectors]
    device = next((one for one in [*devices, *collectors] if one.name == arguments.device), None)
    mine: list[Finding] = [one for one in [*project.findings, *findings] if one.device in ("", arguments.device)]
    if device is None and arguments.device not in names:
        raise Unusable(Place(project.file), f"there is no device '{arguments.device}'", nearest(arguments.device, names))
    rows = [] if device is None else [(where(place), what, known) for place, what, known in rows_of(device)]
    widths = [max((len(row[column]) for row in rows), default=0) for column in (0, 1)]
    for place, what, known in rows:
        print(f"{place:<{widths[0]}}  {what:<{widths[1]}}  {known}".rstrip())
    report = Report(mine + (device.findings if device else []), project.accept)
    print(report.text(), end="")
    return report.status
