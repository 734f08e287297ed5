"""Routing tables in JSON: `ip -j route`, FRR, Junos and EOS."""
from __future__ import annotations

from typing import Any, Iterator, Mapping

from once_tools.model import Grade, Place, Unusable
from once_tools.paths.routes import Hop, Tables, gateway_of
from once_tools.source import Source

DROPPING = ("blackhole", "unreachable", "prohibit")
NOT_FORWARDED = ("local", "broadcast", "multicast", "anycast", "throw")
MAIN_TABLES = ("main", "254", "local", "255", "default", "253", None)


def read(found: Any, source: Source, tables: Tables) -> None:
    """Adds the routes of a value; its form says which program printed it."""
    place = Place(source.name)
    try:
        if isinstance(found, list):
            _linux(found, place, tables)
        elif "route-information" in found:
            _junos(found, place, tables)
        elif "vrfs" in found:
            _eos(found, place, tables)
        else:
            _frr(found, place, tables)
    except (AttributeError, TypeError, KeyError, IndexError, ValueError) as error:
        raise Unusable(place, "has not the form of `ip -j route`, of FRR's, Junos' or EOS' routes in JSON",
                       "save the command's whole output") from error


def _linux(found: list[Mapping[str, Any]], place: Place, tables: Tables) -> None:
    best: dict[str, tuple[int, list[Mapping[str, Any]]]] = {}
    others: dict[str, int] = {}
    for one in found:
        if one.get("table") not in MAIN_TABLES:
            others[str(one["table"])] = others.get(str(one["table"]), 0) + 1
        elif one.get("type") not in NOT_FORWARDED:
            prefix, metric = _linux_prefix(one, found), int(one.get("metric", 0))
            known = best.get(prefix)
            if known is None or metric < known[0]:
                best[prefix] = (metric, [one])
            elif metric == known[0]:
                known[1].append(one)
    for prefix, (_, entries) in best.items():
        tables.add("", prefix, [hop for one in entries for hop in _linux_hops(one)], place)
    for table, count in others.items():
        tables.note(Grade.PREMISE, place, f"table {table} has {count} routes that only `ip rule` or a VRF can use: paths are "
                    "those of the main table", "declare the traffic that takes this table with 'paths'")


def _linux_prefix(one: Mapping[str, Any], found: list[Mapping[str, Any]]) -> str:
    prefix = str(one["dst"])
    if prefix != "default":
        return prefix
    gateways = [str(hop.get("gateway", "")) for hop in one.get("nexthops", [one])]
    is_six = any(":" in gateway for gateway in gateways)
    if not any(gateways):
        named = [str(other["dst"]) for other in found if other["dst"] != "default"]
        is_six = bool(named) and all(":" in other for other in named)
    return "::/0" if is_six else "0.0.0.0/0"


def _linux_hops(one: Mapping[str, Any]) -> Iterator[Hop]:
    if one.get("type") in DROPPING:
        return
    for hop in one.get("nexthops") or [one]:
        if "dead" in hop.get("flags", []) or not hop.get("dev"):
            continue
        via = hop.get("via", {})
        yield Hop(str(hop["dev"]), gateway_of(hop.get("gateway") or via.get("host")))


def _frr(found: Mapping[str, Any], place: Place, tables: Tables) -> None:
    for name, value in found.items():
        if isinstance(value, list):
            _frr_route(name, value, place, tables)
        else:
            for prefix, entries in value.items():
                _frr_route(prefix, entries, place, tables)


def _frr_route(prefix: str, entries: list[Mapping[str, Any]], place: Place, tables: Tables) -> None:
    for one in entries:
        if not one.get("selected") or not one.get("installed"):
            continue
        vrf = str(one.get("vrfName", "default"))
        hops = []
        for hop in one["nexthops"]:
            if hop.get("fib") and not hop.get("blackhole") and not hop.get("recursive") and "interfaceName" in hop:
                other = hop.get("vrf")
                other = None if other in (None, vrf) else "" if other == "default" else str(other)
                hops.append(Hop(str(hop["interfaceName"]), gateway_of(hop.get("ip")), other))
        tables.add("" if vrf == "default" else vrf, prefix, hops, place)


def _data(value: Any, key: str) -> str:
    """Returns a leaf as Junos writes it: a list of one object with the member `data`."""
    found = value.get(key, [{}])[0].get("data", "")
    return found if isinstance(found, str) else ""


def note_several_hops(most: int, place: Place, tables: Tables) -> None:
    """Notes that each next hop of a Junos route is taken for a path."""
    if most > 1:
        tables.note(Grade.NOTE, place, "routes have several next hops, and each is a path: whether the device uses all of them "
                    "(load balancing) or the selected one alone, this table does not say")


def _junos(found: Mapping[str, Any], place: Place, tables: Tables) -> None:
    most = 0
    for table in (one for each in found["route-information"] for one in each.get("route-table", [])):
        vrf, is_unicast = junos_instance(_data(table, "table-name"))
        for route in table.get("rt", []) if is_unicast else []:
            prefix = _data(route, "rt-destination")
            for entry in route.get("rt-entry", []):
                if _data(entry, "active-tag") in ("*", "@", "+") and _data(entry, "protocol-name") != "Local":
                    hops = [Hop(_data(hop, "via"), gateway_of(_data(hop, "to"))) for hop in entry.get("nh", [])
                            if _data(hop, "via")]
                    tables.add(vrf, prefix, hops, place)
                    most = max(most, len(hops))
    note_several_hops(most, place, tables)


def junos_instance(table: str) -> tuple[str, bool]:
    """Returns the routing instance of a Junos table, and whether it has unicast routes of IP."""
    parts = table.split(".")
    return ".".join(parts[:-2]), len(parts) >= 2 and parts[-2] in ("inet", "inet6") and parts[-1] == "0"


def _eos(found: Mapping[str, Any], place: Place, tables: Tables) -> None:
    for vrf, value in found["vrfs"].items():
        for prefix, route in value.get("routes", {}).items():
            if route.get("routeAction", "forward") == "forward" or route.get("routeAction") == "drop":
                hops = [Hop(str(via.get("interface", "")), gateway_of(via.get("nexthopAddr"))) for via in route["vias"]
                        if route.get("routeAction") != "drop"]
                tables.add("" if vrf == "default" else vrf, prefix, hops, place)
