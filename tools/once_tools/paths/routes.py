"""Routing tables: what a route is, and the table's text in its several forms."""
from __future__ import annotations

import ipaddress
import json
from dataclasses import dataclass, field

from once_tools.model import Finding, Grade, Place, Unusable
from once_tools.paths.topology import Address, address_of
from once_tools.source import Source

Network = ipaddress.IPv4Network | ipaddress.IPv6Network


@dataclass(frozen=True)
class Hop:
    """A next hop. Without an interface it is found by the route to the gateway; `vrf` is another table's, if named."""

    interface: str = ""
    gateway: Address | None = None
    vrf: str | None = None


@dataclass(frozen=True)
class Route:
    """A route of a table; without next hops its packets are dropped."""

    prefix: Network
    hops: tuple[Hop, ...]
    place: Place


@dataclass
class Table:
    """The routes of one device and routing instance, of both versions."""

    routes: dict[tuple[int, int, int], Route] = field(default_factory=dict)
    lengths: dict[int, list[int]] = field(default_factory=dict)

    def add(self, route: Route) -> None:
        """Adds a route; next hops of another route for the same prefix are joined with its own."""
        prefix = route.prefix
        key = (prefix.version, prefix.prefixlen, int(prefix.network_address))
        known = self.routes.get(key)
        if known:
            route = Route(prefix, tuple(dict.fromkeys([*known.hops, *route.hops])), known.place)
        self.routes[key] = route
        lengths = self.lengths.setdefault(prefix.version, [])
        if prefix.prefixlen not in lengths:
            lengths.append(prefix.prefixlen)
            lengths.sort(reverse=True)

    def lookup(self, version: int, address: int) -> Route | None:
        """Returns the longest route that holds an address."""
        bits = 32 if version == 4 else 128
        for length in self.lengths.get(version, []):
            route = self.routes.get((version, length, address >> (bits - length) << (bits - length)))
            if route:
                return route
        return None


@dataclass
class Tables:
    """All tables of one device, by routing instance ("" for the main one)."""

    by_vrf: dict[str, Table] = field(default_factory=dict)
    findings: list[Finding] = field(default_factory=list)

    def add(self, vrf: str, prefix: str, hops: list[Hop], place: Place) -> None:
        """Adds a route, or a finding where its prefix is none."""
        try:
            network = ipaddress.ip_network(prefix, strict=False)
        except ValueError:
            self.findings.append(Finding(Grade.NOT_CARRIED_OVER, place, f"route '{prefix}' has no prefix that can be read",
                                         "correct the file, or take the line out"))
            return
        if not network.is_multicast:
            self.by_vrf.setdefault(vrf, Table()).add(Route(network, tuple(hops), place))

    def note(self, grade: Grade, place: Place, says: str, todo: str = "") -> None:
        """Adds a finding."""
        self.findings.append(Finding(grade, place, says, todo))


def read_routes(source: Source, tables: Tables) -> None:
    """Adds the routes of a file, whatever its form."""
    from once_tools.paths import route_json, route_texts  # these modules make routes
    text = source.text.lstrip()
    if text[:1] in ("[", "{"):
        try:
            found = json.loads(text)
        except (ValueError, RecursionError) as error:
            raise Unusable(Place(source.name), f"is not JSON: {error}", "save the command's whole output") from error
        route_json.read(found, source, tables)
    else:
        route_texts.read(source, tables)


def gateway_of(text: object) -> Address | None:
    """Returns the address that a text spells, or None."""
    return address_of(text) if isinstance(text, str) else None
