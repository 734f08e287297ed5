"""Matches what exporters send to with where collectors listen."""
from __future__ import annotations

import ipaddress
from dataclasses import replace

from once_tools.endpoints import Endpoint, endpoint_of, normal
from once_tools.model import Destination, Device, Exporter, Finding, Grade, Listener, Place
from once_tools.network import Link, Network
from once_tools.project import AddressEntry


class Addresses:
    """The addresses of a project that stand for others: those of NAT, of host names and of several machines."""

    def __init__(self, entries: list[AddressEntry], findings: list[Finding]) -> None:
        self.known: dict[Endpoint, list[Endpoint]] = {}
        for entry in entries:
            given, real = endpoint_of(entry.given), [endpoint_of(text) for text in entry.real]
            if given is None or not real or None in real:
                findings.append(Finding(Grade.WRONG, entry.place, "this is no pair of addresses",
                                        'write "203.0.113.5:4739" = "192.0.2.10:4739", or a list'))
            else:
                self.known[given] = [one for one in real if one]

    def behind(self, address: str, port: int) -> list[Endpoint]:
        """Returns the endpoints that a destination stands for: itself if nothing is said."""
        address = normal(address)
        for given in (Endpoint(address, port), Endpoint(address, 0)):
            if given in self.known:
                return [Endpoint(one.address, one.port or port) for one in self.known[given]]
        return [Endpoint(address, port)]


def spread(device: Device, addresses: Addresses) -> None:
    """Gives an exporter a destination for each machine that a destination stands for; it then chooses one of them."""
    for exporter in list(device.exporters):
        for to in list(exporter.destinations):
            ends = addresses.behind(to.address, to.port) if to.address else []
            if len(ends) > 1:
                spread_one(device, exporter, to, [replace(to, name=f"{one.address} port {one.port}", address=one.address,
                                                          port=one.port) for one in ends])


def spread_one(device: Device, exporter: Exporter, to: Destination, ends: list[Destination]) -> None:
    """Replaces a destination by several; if the exporter has parallel others, in an exporter of their own."""
    if len(exporter.destinations) == 1:
        exporter.mode, exporter.destinations = "loadBalancing", ends
        return
    if exporter.mode != "parallel":
        at = exporter.destinations.index(to)
        exporter.destinations[at:at + 1] = ends
        return
    exporter.destinations.remove(to)
    name = f"{exporter.name} {to.name}"
    device.exporters.append(Exporter(name, ends, to.place, "loadBalancing", exporter.source))
    holders = [one.exporters for one in device.caches] + [one.forwards for one in device.listeners]
    holders += [one.exporters for listener in device.listeners for one in listener.aggregations]
    for names in holders:
        if exporter.name in names:
            names.append(name)


def listening(devices: list[Device], end: Endpoint, transport: str) -> list[tuple[Device, Listener]]:
    """Returns the listeners at an endpoint, of this transport or of any."""
    found = []
    for device in devices:
        for listener in device.listeners:
            for address, port, kind in listener.listens:
                if normal(address) == end.address and port == end.port and kind in ("", transport):
                    found.append((device, listener))
                    break
    return found


def is_allowed(listener: Listener, exporter: Exporter) -> bool | None:
    """Returns whether a listener takes records of an exporter; None if the exporter's address is not known."""
    if listener.accepts is None:
        return True
    if not exporter.source:
        return None
    return any(is_within(normal(exporter.source), one) for one in listener.accepts)


def is_within(address: str, allowed: str) -> bool:
    """Returns whether an address is the allowed one, or in the allowed prefix."""
    try:
        return ipaddress.ip_address(address) in ipaddress.ip_network(allowed, strict=False)
    except ValueError:
        return address == normal(allowed)


class Linker:
    """Makes the links of a network."""

    def __init__(self, network: Network, addresses: Addresses) -> None:
        self.network, self.addresses = network, addresses

    def add(self, grade: Grade, place: Place, says: str, todo: str, device: Device, exporter: Exporter) -> None:
        self.network.findings.append(Finding(grade, place, says, todo, device=device.name, exporters=(exporter.name,)))

    def link_all(self) -> None:
        """Links all destinations that have an address, and what is within a device."""
        for device in self.network.devices:
            for exporter in device.exporters:
                inner = next((one for one in device.listeners if exporter.name in one.local_exporters), None)
                for to in exporter.destinations:
                    if inner:
                        self.network.links.append(Link(device.name, exporter.name, to.name, device.name, inner.name, to.place))
                    elif to.address:
                        self.link(device, exporter, to)

    def link(self, device: Device, exporter: Exporter, to: Destination) -> None:
        """Links a destination to the one listener there is, and reports what is to be known."""
        end = self.addresses.behind(to.address, to.port)[0]
        found = listening(self.network.devices, end, to.transport)
        if len(found) > 1:
            names = " and ".join(f"{one.name} ({listener.place.file}:{listener.place.line})" for one, listener in found)
            self.network.findings.append(Finding(Grade.WRONG, to.place, f"{end} is listened at by {names}",
                                                 "give each collector its own address or port", device=device.name))
            return
        if not found:
            return
        there, listener = found[0]
        allowed = is_allowed(listener, exporter)
        if allowed is False:
            self.add(Grade.WARNING, to.place, f"{there.name} takes no records from {exporter.source}, the address that "
                     f"{device.name} sends from: what is sent there is lost", f"add it to accept_from of {there.name}",
                     device, exporter)
            return
        if allowed is None:
            self.add(Grade.PREMISE, to.place, f"{there.name} takes records from certain addresses alone, and the address "
                     f"that {device.name} sends from is not known: it is taken to be one of them", "set the source of the "
                     "exporter", device, exporter)
        self.network.links.append(Link(device.name, exporter.name, to.name, there.name, listener.name, to.place))
        self.describe(device, exporter, to, there, end)

    def describe(self, device: Device, exporter: Exporter, to: Destination, there: Device, end: Endpoint) -> None:
        """Reports which collector a destination is."""
        behind = f" by [addresses] {end}" if str(end) != str(Endpoint(normal(to.address), to.port)) else ""
        vrf = f"; whether vrf {to.vrf} leads there is not checked" if to.vrf else ""
        self.add(Grade.NOTE, to.place, f"this is{behind} {there.name}, port {end.port}{vrf}", "", device, exporter)
