"""Routing tables as texts: IOS `show ip route` and `show ip cef`, XR `show cef`, Junos `show route`."""
from __future__ import annotations

import re

from once_tools.model import Grade, Place, Unusable
from once_tools.paths.route_json import junos_instance, note_several_hops
from once_tools.paths.routes import Hop, Tables, gateway_of
from once_tools.source import Source

ADDRESS = r"[0-9A-Fa-f:.]*[.:][0-9A-Fa-f:.]*"
PREFIX = ADDRESS + r"/\d+"
RouteParts = tuple[str, str, list[Hop], Place]  # routing instance, prefix, next hops, place
DROPS = ("Null0", "null0", "drop", "discard", "no", "punt", "unresolved")


def read(source: Source, tables: Tables) -> None:
    """Adds the routes of a text."""
    text = source.text
    if re.search(r"^Prefix\s+Next Hop\s+Interface", text, re.M):
        _cef(source, tables)
    elif re.search(r"^\S+\.inet6?\.0:|^inet6?\.0:", text, re.M):
        _junos(source, tables)
    elif re.search(r"^Codes:|is directly connected|\[\d+/\d+\] via", text, re.M):
        _ios(source, tables)
    else:
        raise Unusable(Place(source.name), "has no routes in a form that is known", "give the output of `ip -j route show "
                       "table all`, FRR's `show ip route json`, `show ip cef` or Junos' `show route | display json`")


def _cef(source: Source, tables: Tables) -> None:
    vrf, prefix, start = "", "", Place(source.name)
    hops: list[Hop] = []
    routes: list[RouteParts] = []
    for number, line in enumerate(source.lines(), 1):
        found = re.match(rf"({PREFIX})?\s+(\S.*?)\s*$", line)
        instance = re.match(r"\s*(?:VRF|vrf)[: ]+(\S+)", line)
        if instance:
            vrf = instance[1]
        if instance or not found or line.startswith("Prefix"):
            continue
        if found[1]:
            prefix, hops, start = found[1], [], source.place(number)
            if not found[2].startswith("receive") and "broadcast" not in found[2]:
                routes.append((vrf, prefix, hops, start))
        words = found[2].split()
        if not prefix or words[0] in ("receive", *DROPS) or words[-1] in DROPS:
            continue
        interface = "" if words[-1] == "<recursive>" or len(words) < 2 else words[-1]
        gateway = gateway_of(words[0])
        if interface or gateway:
            hops.append(Hop(interface, gateway))
    for route in routes:
        tables.add(*route)


def _ios(source: Source, tables: Tables) -> None:
    vrf, prefix, length = "", "", ""
    route: RouteParts | None = None
    routes: list[RouteParts] = []
    for number, line in enumerate(source.lines(), 1):
        instance = re.match(r"Routing Table: (\S+)", line) or re.match(r"VRF: (\S+)", line)
        subnetted = re.match(r"\s+\S+/(\d+) is subnetted", line)
        begun = re.match(rf" ?([A-Za-z][A-Za-z0-9*%+& ]{{0,8}}?)\s+({PREFIX}|\d+\.\d+\.\d+\.\d+)(?:\s+(\S.*))?$", line)
        if instance:
            vrf = "" if instance[1] == "default" else instance[1]
        elif subnetted:
            length = "/" + subnetted[1]
        elif begun and not line.startswith("Gateway"):
            prefix = begun[2] if "/" in begun[2] else begun[2] + length
            route = (vrf, prefix, [], source.place(number))
            if begun[1].split()[0] not in ("L", "LC"):
                routes.append(route)
            _ios_hop(begun[3] or "", route[2])
        elif route and re.match(r"\s+(\[\d+/\d+\] )?(via|is directly)", line):
            _ios_hop(line.strip(), route[2])
        elif " via " in line and not line.startswith(("Codes", " ")):
            tables.note(Grade.NOT_CARRIED_OVER, source.place(number), "is no route that can be read",
                        "give `show ip cef` instead")
    for route in routes:
        tables.add(*route)


def _ios_hop(text: str, hops: list[Hop]) -> None:
    """Adds the next hop of `[110/20] via 172.31.0.4, 00:01:02, Gi0/0` or `is directly connected, Gi0/0`."""
    connected = re.search(r"is (?:directly connected|a summary)[^,]*(?:,\s*[0-9:wdhy]+)?,\s*(\S+)", text)
    via = re.search(rf"via ({ADDRESS})(?: \((\S+)\))?(.*)$", text)
    if connected:
        interface = connected[1].rstrip(",")
        if interface not in DROPS:
            hops.append(Hop(interface))
    elif via:
        rest = [one.strip() for one in via[3].split(",") if one.strip()]
        interface = rest[-1] if rest and re.match(r"[A-Za-z][\w-]*\d", rest[-1]) else ""
        if interface not in DROPS:
            vrf = "" if via[2] in ("default", "global", "GLOBAL") else via[2]
            hops.append(Hop(interface, gateway_of(via[1].rstrip(",")), vrf))
    elif interface_only := re.search(r"via (?:directly connected, )?([A-Za-z]\S*\d)", text):
        if interface_only[1] not in DROPS:
            hops.append(Hop(interface_only[1]))


def _junos(source: Source, tables: Tables) -> None:
    vrf, is_unicast, prefix, is_active = "", False, "", False
    hops: list[Hop] = []
    routes: list[RouteParts] = []
    for number, line in enumerate(source.lines(), 1):
        table = re.match(r"(\S+\.\d+): \d+ destinations", line)
        begun = re.match(rf"({PREFIX})?\s+([*+-]?)\[(\w+)/", line)
        if table:
            vrf, is_unicast = junos_instance(table[1])
            continue
        alone = re.match(rf"({PREFIX})\s*$", line)
        if alone:
            prefix = alone[1]
        if begun:
            prefix, hops = begun[1] or prefix, []
            is_active = begun[2] in ("*", "+")
            if is_active and is_unicast and begun[3] != "Local":
                routes.append((vrf, prefix, hops, source.place(number)))
        via = re.match(rf"\s+>?\s*(?:to ({ADDRESS}) )?via (\S+?),?(?:\s|$)", line)
        if via and is_active:
            hops.append(Hop(via[2], gateway_of(via[1])))
        leak = re.match(r"\s+>?\s*to table (\S+)", line)
        if leak and is_active:
            tables.note(Grade.PREMISE, source.place(number), "leads to another routing instance: what is routed there is "
                        "taken to leave the network here", "declare this traffic with 'paths'")
    note_several_hops(max((len(route[2]) for route in routes), default=0), Place(source.name), tables)
    for route in routes:
        tables.add(*route)
