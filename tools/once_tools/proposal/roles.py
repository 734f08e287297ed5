"""Guesses from configurations which interfaces lead to customers and which to the core."""
from __future__ import annotations

import ipaddress
import re
from typing import Iterator

from once_tools.model import Crossing, Direction, Interface, Place
from once_tools.paths.topology import Address, Node, address_of
from once_tools.proposal.areas import Area, Edge, Surroundings
from once_tools.report import where

CUSTOMERS = re.compile(r"\b(customers?|cust|clients?|subscribers?|access|lan|tenants?)\b", re.I)
CORE = re.compile(r"\b(core|uplink|upstream|transit|peers?|peering|internet|isp|wan|backbone|border|spine)\b", re.I)
DEFAULT = re.compile(r"(?<![\d.])0\.0\.0\.0(/0| 0\.0\.0\.0| 0)(?![\d./])|(?<![\w:])::/0")
ROUTE = re.compile(r"\broutes?\b|route-static|static-route")
ADDRESS = re.compile(r"[0-9A-Fa-f:.]*[.:][0-9A-Fa-f:.]+")
ROLES = ("customers", "core")


def role_of(text: str) -> str:
    """Returns the role that words suggest."""
    if CUSTOMERS.search(text):
        return "customers"
    return "core" if CORE.search(text) else ""


def by_words(edge: Edge, around: Surroundings) -> tuple[str, str]:
    """Returns the role that the description of an interface, its name or the description of its main interface suggests."""
    one = edge.interface
    if role_of(one.description):
        return role_of(one.description), f"description \"{one.description}\" ({where(one.place)})"
    if role_of(one.name):
        return role_of(one.name), f"its name ({where(one.place)})"
    parent = around.topology.interfaces[edge.node[0]].get(one.parent)
    if parent and role_of(parent.description):
        return role_of(parent.description), f"description \"{parent.description}\" of {parent.name} ({where(parent.place)})"
    return "", ""


def is_within(address: Address, one: Interface) -> bool:
    """Returns whether an address is in a subnet of an interface."""
    networks = [ipaddress.ip_interface(text).network for text in one.addresses]
    return any(network.version == address.version and address in network for network in networks)


def routes_by_table(device: str, around: Surroundings) -> Iterator[tuple[str, Address | None, Place]]:
    """Yields interface, gateway and place of the next hops of default routes in routing tables."""
    for tables in around.tables.get(device, []):
        for table in tables.by_vrf.values():
            for version in (4, 6):
                route = table.routes.get((version, 0, 0))
                for hop in route.hops if route else ():
                    yield hop.interface, hop.gateway, route.place if route else Place("")


def routes_by_statement(device: str, around: Surroundings) -> Iterator[tuple[str, Address | None, Place]]:
    """Yields interface, gateway and place of static default routes: a line about routes has the default prefix, followed by the
    next hop."""
    entry = next((one for one in around.project.devices if one.name == device), None)
    for source in around.project.sources(entry.config, entry.place) if entry and device in around.devices else []:
        is_router = False
        for number, line in enumerate(source.lines(), 1):
            is_router = is_router and line[:1].isspace() or line.startswith("router static")
            found = DEFAULT.search(line)
            if not found or not (is_router or ROUTE.search(line)):
                continue
            gateways = [one for one in (address_of(text) for text in ADDRESS.findall(line[found.end():])) if one]
            words = re.split(r"[\s=]+", line[found.end():].strip())
            for name in words:
                yield name if name in around.topology.interfaces[device] else "", None, source.place(number)
            for gateway in gateways:
                yield "", gateway, source.place(number)


def default_nodes(around: Surroundings) -> dict[Node, Place]:
    """Returns the interfaces by which default routes lead out, each with the line of the route."""
    found: dict[Node, Place] = {}
    for device, interfaces in around.topology.interfaces.items():
        for name, gateway, place in [*routes_by_table(device, around), *routes_by_statement(device, around)]:
            names = [name] if name else [one.name for one in interfaces.values() if gateway and is_within(gateway, one)]
            for each in names:
                found.setdefault((device, each), place)
    return found


def is_point_to_point(one: Interface) -> bool:
    """Returns whether the subnets of an interface have two hosts each."""
    networks = [ipaddress.ip_interface(text).network for text in one.addresses]
    hosts = [network for network in networks if network.num_addresses < 2]
    return bool(networks) and not hosts and all(network.num_addresses <= 4 for network in networks)


def split(edges: list[Edge], core: list[Edge], why_core: str, why_customers: str) -> bool:
    """Gives two roles to interfaces without any, if there are some of either."""
    if not core or len(core) == len(edges):
        return False
    for edge in edges:
        edge.role, edge.reason = ("core", why_core) if edge in core else ("customers", why_customers)
        edge.is_sure = False
    return True


def give_rest(area: Area, around: Surroundings) -> None:
    """Gives roles to the interfaces of which nothing is said: the other one if one is known, else those that addresses or
    meters suggest."""
    rest = [edge for edge in area.edges if not edge.role]
    known = {edge.role for edge in area.edges} - {""}
    if len(known) == 1:
        role = "core" if known == {"customers"} else "customers"
        others = "customers" if role == "core" else "the core"
        for edge in rest:
            edge.role, edge.reason, edge.is_sure = role, f"a guess: the others lead to {others}", False
    if known or not rest:
        return
    pairs = [edge for edge in rest if is_point_to_point(edge.interface)]
    unmetered = [edge for edge in rest if Crossing(*edge.node, Direction.INGRESS) not in around.metered]
    if not split(rest, pairs, "a guess: a subnet of two hosts", "a guess: a larger subnet than the others'"):
        split(rest, unmetered, "a guess: what comes in there is not metered", "a guess: what comes in there is metered")


def give_roles(around: Surroundings) -> None:
    """Gives each interface the role that descriptions, names, default routes or the other interfaces suggest."""
    defaults = default_nodes(around)
    for area in (one for one in around.areas if not one.is_host and not one.is_switch):
        for edge in area.edges:
            edge.role, edge.reason = by_words(edge, around)
            if not edge.role and edge.node in defaults:
                edge.role, edge.reason = "core", f"the default route leads out by it ({where(defaults[edge.node])})"
        give_rest(area, around)
