"""A network of devices and links, and which of its processes lead to the report."""
from __future__ import annotations

from dataclasses import dataclass, field

from once_tools.model import Cache, Device, Exporter, Finding, Listener, Place, Point

Process = tuple[str, str]


@dataclass(frozen=True)
class Link:
    """A destination of an exporter, and the listener that its records come to."""

    device: str
    exporter: str
    destination: str
    to_device: str
    to_process: str
    place: Place


@dataclass
class Network:
    """Devices and links; `report` is the device and the listener whose totals are asked for."""

    devices: list[Device] = field(default_factory=list)
    links: list[Link] = field(default_factory=list)
    report: Process = ("", "")
    findings: list[Finding] = field(default_factory=list)

    def device(self, name: str) -> Device | None:
        """Returns the device of a name."""
        return next((one for one in self.devices if one.name == name), None)

    def link_of(self, device: str, exporter: str, destination: str) -> Link | None:
        """Returns the link of a destination."""
        return next((one for one in self.links
                     if (one.device, one.exporter, one.destination) == (device, exporter, destination)), None)


def exporters_of_listener(listener: Listener) -> list[str]:
    """Returns the exporters that send on what a listener receives."""
    return listener.forwards + [name for one in listener.aggregations for name in one.exporters]


def leading_listeners(network: Network) -> set[Process]:
    """Returns the listeners from which records reach the report, with that of the report itself."""
    feeds: dict[Process, set[Process]] = {}
    for device in network.devices:
        for listener in device.listeners:
            for link in network.links:
                if link.device == device.name and link.exporter in exporters_of_listener(listener):
                    feeds.setdefault((link.to_device, link.to_process), set()).add((device.name, listener.name))
    found, waiting = {network.report}, [network.report]
    while waiting:
        for one in feeds.get(waiting.pop(), set()) - found:
            found.add(one)
            waiting.append(one)
    return found


def leading_exporters(network: Network) -> set[Process]:
    """Returns the exporters some of whose records reach the report."""
    listeners = leading_listeners(network)
    return {(link.device, link.exporter) for link in network.links if (link.to_device, link.to_process) in listeners}


def is_leading(device: Device, point: Point, leading: set[Process]) -> bool:
    """Returns whether records of a point's packets reach the report."""
    caches = {one.cache for one in point.selections}
    return any((device.name, name) in leading for cache in device.caches if cache.name in caches
               for name in cache.exporters)


def exporter_of(device: Device, name: str) -> Exporter | None:
    """Returns a device's exporter of a name."""
    return next((one for one in device.exporters if one.name == name), None)


def cache_of(device: Device, name: str) -> Cache | None:
    """Returns a device's cache of a name."""
    return next((one for one in device.caches if one.name == name), None)
