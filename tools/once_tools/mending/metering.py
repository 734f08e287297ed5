"""Changes of where packets are metered: observation points, their interfaces and directions, and filters."""
from __future__ import annotations

import ipaddress
from typing import Iterator, Mapping

from once_tools.elements import ADDRESSES, AXES, BITS, COUNTERS, PREFIXES, axis_of, is_value
from once_tools.mending.changes import DIRECTION, FILTER, INTERFACE, METER, POINT, Case, Change, appended, free_name, quoted
from once_tools.mending.patches import Document, Operation, add, remove, replace
from once_tools.network_view import DeviceView, Json, Sighting, entries, passes, selects, table, texts

OTHER = {"ingress": "egress", "egress": "ingress"}
# What makes a sighting less likely to be the one to take out: the first on the path, where packets come into the network.
FIRST = 8


def point_of(one: Sighting) -> Json:
    return one.device.list("observationPoint")[one.point]


def less_metering(case: Case) -> Iterator[Change]:
    """Yields the changes that have fewer of the places count that count the packet."""
    counted = case.counted
    for number, one in enumerate(counted):
        later = 0 if number or case.is_exempt else FIRST
        yield from other_direction(case, one, later)
        yield interface_off(case, one, later)
        yield from process_off(case, one, later)
        yield from narrower(case, one) if case.is_exempt else ()
    for first in counted:
        for other in counted:
            if first is not other:
                yield from left_out(case, first, other)


def interface_off(case: Case, one: Sighting, later: int) -> Change:
    """Returns the change that takes an interface off an observation point, or removes the point with its only interface."""
    point, there = point_of(one), case.pointer(one.device, f"/observationPoint/{one.point}")
    place = one.device.place(one.pointer)
    named = f"observation point {quoted(point.get('name'))} of {one.device.name}"
    if len(texts(point.get("ifName"))) > 1:
        return Change(f"Take interface {one.interface} off {named}.", INTERFACE + later, (remove(f"{there}/ifName/{one.at}"),), place=place)
    points = case.pointer(one.device, "/observationPoint")
    whole = len(one.device.list("observationPoint")) > 1
    return Change(f"Remove {named}, at interface {one.interface}.", POINT + later, (remove(there if whole else points),), place=place)


def other_direction(case: Case, one: Sighting, later: int) -> Iterator[Change]:
    """Yields the change that has a point of both directions meter one of them."""
    point = point_of(one)
    if point.get("direction", "both") == "both":
        there, kept = case.pointer(one.device, f"/observationPoint/{one.point}"), OTHER[one.direction]
        named = f"observation point {quoted(point.get('name'))} of {one.device.name}"
        yield Change(f"Have {named} meter {kept} packets alone.", DIRECTION + later, (add(f"{there}/direction", kept),),
                     place=one.device.place(one.pointer))


def process_off(case: Case, one: Sighting, later: int) -> Iterator[Change]:
    """Yields the change that takes one of several selection processes off a point."""
    point = point_of(one)
    names, taken = texts(point.get("selectionProcess")), one.device.named(one.taken_by)
    if len(names) > 1 and taken in names:
        there = case.pointer(one.device, f"/observationPoint/{one.point}/selectionProcess/{names.index(taken)}")
        yield Change(f"Take selection process {quoted(taken)} off observation point {quoted(point.get('name'))} of {one.device.name}.",
                     INTERFACE + later, (remove(there),), place=one.device.place(one.taken_by))


def prefix_filter(process: Json) -> tuple[int, str, str] | None:
    """Returns the only filter of a prefix that a selection process has: its number, element and value."""
    found = [(at, str(match.get("ieName")), str(match.get("value"))) for at, one in enumerate(entries(process.get("selector")))
             if (match := table(one.get("filterMatch"))).get("ieName") in PREFIXES]
    return found[0] if len(found) == 1 else None


def remainder(whole: str, part: str) -> list[str]:
    """Returns the prefixes that a prefix has without one inside it, ascending; none if it is not inside."""
    outer, inner = ipaddress.ip_network(whole, strict=False), ipaddress.ip_network(part, strict=False)
    if isinstance(outer, ipaddress.IPv4Network) and isinstance(inner, ipaddress.IPv4Network) and inner != outer and inner.subnet_of(outer):
        return [str(it) for it in sorted(outer.address_exclude(inner))]
    if isinstance(outer, ipaddress.IPv6Network) and isinstance(inner, ipaddress.IPv6Network) and inner != outer and inner.subnet_of(outer):
        return [str(it) for it in sorted(outer.address_exclude(inner))]
    return []


def with_value(process: Json, selector: int, value: str, name: str) -> Document:
    """Returns a selection process of another name, with another value in a filter."""
    selectors = [dict(it) for it in entries(process.get("selector"))]
    match: Document = {**table(selectors[selector].get("filterMatch")), "value": value}
    selectors[selector]["filterMatch"] = match
    return {**process, "name": name, "selector": selectors}


def left_out(case: Case, one: Sighting, other: Sighting) -> Iterator[Change]:
    """Yields the change that leaves out of a selection process the prefix that another one takes: it becomes one process for each
    prefix that is left, since selectors of one process are taken together."""
    device = one.device
    process, taker = device.list("selectionProcess")[one.process], other.device.list("selectionProcess")[other.process]
    wide, narrow = prefix_filter(process), prefix_filter(taker)
    if not wide or not narrow or wide[1] != narrow[1]:
        return
    prefixes = remainder(wide[2], narrow[2])
    if not prefixes:
        return
    value = case.pointer(device, f"/selectionProcess/{one.process}/selector/{wide[0]}/filterMatch/value")
    operations, names = [replace(value, prefixes[0])], list[str]()
    for prefix in prefixes[1:]:
        taken: list[Json] = [*device.list("selectionProcess"), *({"name": it} for it in names)]
        names.append(free_name(taken, str(process.get("name"))))
        operations.append(add(case.pointer(device, "/selectionProcess/-"), with_value(process, wide[0], prefix, names[-1])))
    for at, point in enumerate(device.list("observationPoint")):
        if process.get("name") in texts(point.get("selectionProcess")):
            operations += [add(case.pointer(device, f"/observationPoint/{at}/selectionProcess/-"), it) for it in names]
    yield Change(f"Leave {narrow[2]} out of selection process {quoted(process.get('name'))} of {device.name}: it takes {', '.join(prefixes)}.",
                 FILTER, tuple(operations), place=device.place(one.taken_by))


def regional_value(region: Json, element: str) -> str | None:
    """Returns the value that a filter of this element has if it selects what a region has on its axis, if one filter does."""
    value = region.get(axis_of(element))
    if not isinstance(value, str):
        return None
    if element in PREFIXES and "/" not in value and "-" not in value:
        return f"{value}/{BITS[PREFIXES[element]]}"
    return value if is_value(element, value) else None


def other_filters(case: Case, device: DeviceView, point: Json) -> Iterator[Change]:
    """Yields the changes that have a filter of the point select what the class's region has, where it does not select the packet."""
    for name in texts(point.get("selectionProcess")):
        found = device.find("selectionProcess", name)
        if not found or "cache" not in found[1] or selects(found[1], case.packet):
            continue
        operations = []
        for number, selector in enumerate(entries(found[1].get("selector"))):
            match = table(selector.get("filterMatch"))
            if match and not passes(match, case.packet):
                operations.append((case.pointer(device, f"/selectionProcess/{found[0]}/selector/{number}/filterMatch/value"),
                                   regional_value(table(case.one.get("region")), str(match.get("ieName")))))
        changes = tuple(replace(path, value) for path, value in operations if value)
        if changes and len(changes) == len(operations):
            values = ", ".join(str(it.value) for it in changes)
            yield Change(f"Have selection process {quoted(name)} of {device.name} select {values}.", FILTER, changes,
                         place=device.place(f"/selectionProcess/{found[0]}"))


def narrower(case: Case, one: Sighting) -> Iterator[Change]:
    """Yields the changes that add to a selection process which takes an exempt packet a filter of what the classes that are to be
    counted there have, if one filter does."""
    process, crossing = one.device.list("selectionProcess")[one.process], (one.device.name, one.interface, one.direction)
    regions = [table(each.get("region")) for each in entries(case.traffic.get("classes")) if "exempt" not in each and crosses(each, crossing)]
    for axis in AXES:
        element = axis.replace("Address", "Prefix") if axis in ADDRESSES else axis
        values = {regional_value(region, element) for region in regions}
        value = values.pop() if len(values) == 1 else None
        match: Document = {"ieName": element, "value": value}
        if value is None or passes(match, case.packet):
            continue
        there = case.pointer(one.device, f"/selectionProcess/{one.process}/selector")
        selectors: list[Document] = [dict(it) for it in entries(process.get("selector")) if "selectAll" not in it]
        selector: Document = {"name": free_name(list(selectors), element), "filterMatch": match}
        yield Change(f"Have selection process {quoted(process.get('name'))} of {one.device.name} select {element} {value} alone.", FILTER,
                     (replace(there, [*selectors, selector]),), place=one.device.place(one.taken_by))


def crosses(one: Json, crossing: tuple[str, str, str]) -> bool:
    """Returns whether a path of a class has a crossing: device, interface, direction."""
    paths = one.get("paths")
    return any((each.get("device"), each.get("interface"), each.get("direction")) == crossing
               for path in (paths if isinstance(paths, list) else []) for each in entries(path))


def more_metering(case: Case) -> Iterator[Change]:
    """Yields the changes that meter a packet which nothing meters."""
    for number, (device, interface, direction) in enumerate(case.crossings()):
        for at, point in enumerate(device.list("observationPoint")):
            if interface in texts(point.get("ifName")) and point.get("direction", "both") in ("both", direction):
                yield from other_filters(case, device, point)
            if takes(device, point, case.packet):
                yield from interface_on(case, device, at, point, (interface, direction), number)
        if device.list("cache") and device.list("exportingProcess"):
            yield from metered_anew(case, device, interface, direction, number)


def takes(device: DeviceView, point: Json, packet: Mapping[str, str]) -> bool:
    """Returns whether a selection process of the point with a cache selects the packet."""
    found = [device.find("selectionProcess", name) for name in texts(point.get("selectionProcess"))]
    return any(it and "cache" in it[1] and selects(it[1], packet) for it in found)


def interface_on(case: Case, device: DeviceView, at: int, point: Json, crossing: tuple[str, str], number: int) -> Iterator[Change]:
    """Yields the change that adds the interface to a point of the direction, or the direction to a point at the interface."""
    (interface, direction), there = crossing, case.pointer(device, f"/observationPoint/{at}")
    named = f"observation point {quoted(point.get('name'))} of {device.name}"
    has = point.get("direction", "both")
    place = device.interface_place(interface) if interface not in texts(point.get("ifName")) else device.place(f"/observationPoint/{at}")
    if has in ("both", direction) and "ifName" in point and interface not in texts(point.get("ifName")):
        yield Change(f"Add interface {interface} to {named}.", INTERFACE + number, (add(f"{there}/ifName/-", interface),), place=place)
    elif interface in texts(point.get("ifName")) and has == OTHER[direction]:
        yield Change(f"Have {named} meter both directions.", INTERFACE + 2 + number, (replace(f"{there}/direction", "both"),), place=place)
        yield Change(f"Have {named} meter {direction} packets, and not {has} ones.", INTERFACE + 4 + number,
                     (replace(f"{there}/direction", direction),), place=place)


def selectors_for(packet_version: str) -> list[Document]:
    return [{"name": "ipVersion", "filterMatch": {"ieName": "ipVersion", "value": packet_version}}]


def cache_for(case: Case, device: DeviceView, name: str) -> Document:
    """Returns a cache by the key of the report, of the kind and with the exporting processes of the device's first one."""
    first = device.list("cache")[0]
    kind = next((it for it in first if it.endswith("Cache")), "timeoutCache")
    settings = {key: value for key, value in table(first[kind]).items() if key != "cacheLayout"}
    elements = [element for element, _ in case.report_key()]
    key: Document = {} if kind == "immediateCache" else {"isFlowKey": [None]}
    fields: list[Document] = [{"name": it, "ieName": it, **key} for it in elements]
    fields += [{"name": it, "ieName": it} for it in COUNTERS]
    layout: Document = {"cacheField": fields}
    of_kind: Document = {**settings, "cacheLayout": layout}
    return {"name": name, kind: of_kind, "exportingProcess": texts(first.get("exportingProcess"))}


def metered_anew(case: Case, device: DeviceView, interface: str, direction: str, number: int) -> Iterator[Change]:
    """Yields the change that adds an observation point with a selection process and a cache of its own for the packet's version."""
    version = case.packet.get("ipVersion", "4")
    name = f"IPv{version} {direction}"
    names = [free_name(device.list(kind), name) for kind in ("cache", "selectionProcess", "observationPoint")]
    domains = [point.get("observationDomainId") for point in device.list("observationPoint")]
    point = {"name": names[2], "observationDomainId": domains[0] if domains else 1, "ifName": [interface], "direction": direction,
             "selectionProcess": [names[1]]}
    operations: tuple[Operation, ...] = (
        appended(case, device, "cache", cache_for(case, device, names[0])),
        appended(case, device, "selectionProcess", {"name": names[1], "selector": selectors_for(version), "cache": names[0]}),
        appended(case, device, "observationPoint", point),
    )
    yield Change(f"Meter IPv{version} packets {'that come in' if direction == 'ingress' else 'that leave'} at interface {interface} of {device.name}: "
                 f"a new observation point, with a cache by the key of the report.", METER + number, operations,
                 place=device.interface_place(interface))
