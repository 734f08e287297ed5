"""A network document of one meter and one collector: the meter has one interface, and plugins that export."""
from __future__ import annotations

import dataclasses
import ipaddress
from typing import Iterator

from once_tools import elements
from once_tools.tables import cells
from once_tools.tables.cells import Entry
from once_tools.tables.devices import MODULE

End = tuple[str, str, str]

VERSIONS = (4, 6)


@dataclasses.dataclass
class Plugin:
    """What exports: the axes that distinguish its flows, with `sourceAddress` for that of either version."""
    name: str
    axes: list[str]
    versions: tuple[int, ...] = VERSIONS
    kind: str = "timeout"
    settings: dict[str, int] = dataclasses.field(default_factory=dict)
    matches: list[Entry] = dataclasses.field(default_factory=list)
    mode: str = "parallel"
    destinations: list[End] = dataclasses.field(default_factory=list)


@dataclasses.dataclass
class Meter:
    """What an exporter's settings say, with what they say that couldn't be carried over and what is to be known."""
    interface: str = ""
    direction: str = "both"
    domain: int = 0
    matches: list[Entry] = dataclasses.field(default_factory=list)
    plugins: list[Plugin] = dataclasses.field(default_factory=list)
    lost: list[str] = dataclasses.field(default_factory=list)
    told: list[str] = dataclasses.field(default_factory=list)


class Unusable(Exception):
    """Settings of which no document can be made, with why and what to do."""


def axes_of(plugin: Plugin, version: int) -> list[str]:
    """The axes of a plugin's records of one version of IP."""
    return [axis.replace("Address", "IPv%dAddress" % version) for axis in plugin.axes]


def is_of(version: int, match: Entry) -> bool:
    """Whether packets of this version of IP can have the value."""
    element = match["ieName"]
    if element == "ipVersion":
        return bool(match["value"] == str(version))
    address = elements.ADDRESSES.get(element) or elements.PREFIXES.get(element)
    return address in (None, version)


def selection_process(name: str, version: int, matches: list[Entry], cache: str) -> Entry:
    """Selects the packets of one version that have the values."""
    wanted: list[Entry] = [{"ieName": "ipVersion", "value": str(version)}] + [one for one in matches if one["ieName"] != "ipVersion"]
    selectors: list[Entry] = [{"name": one["ieName"], "filterMatch": one} for one in wanted]
    for place, selector in enumerate(selectors):
        if any(selector["name"] == other["name"] for other in selectors[:place]):
            selector["name"] += " %d" % place
    return {"name": name, "selector": selectors, "cache": cache}


def destination(host: str, port: str, transport: str) -> Entry:
    """A destination; its parameters are unread, and an address that is no number isn't one of the model."""
    parameters: Entry = {}
    try:
        parameters["destinationIPAddress"] = str(ipaddress.ip_address(host))
    except ValueError:
        pass
    if elements.is_number(port, 1, 65535):
        parameters["destinationPort"] = int(port)
    if transport == "sctp" and "destinationIPAddress" in parameters:
        parameters["destinationIPAddress"] = [parameters["destinationIPAddress"]]
    return {"name": "%s port %s" % (host, port), transport + "Exporter": parameters}


def meter_of(meter: Meter) -> Entry:
    """The meter's configuration: for each plugin and version of IP a selection process and a cache."""
    ipfix: dict[str, list[Entry]] = {"observationPoint": [], "selectionProcess": [], "cache": [], "exportingProcess": []}
    for plugin in meter.plugins:
        matches = meter.matches + plugin.matches
        for version in plugin.versions:
            if not all(is_of(version, match) for match in matches):
                continue
            name = "%s IPv%d" % (plugin.name, version)
            layout = {"cacheField": elements.cache_fields(axes_of(plugin, version))}
            cache: Entry = {**plugin.settings, "cacheLayout": layout}
            ipfix["selectionProcess"].append(selection_process(name, version, matches, name))
            ipfix["cache"].append({"name": name, plugin.kind + "Cache": cache, "exportingProcess": [plugin.name]})
        ipfix["exportingProcess"].append({"name": plugin.name, "exportMode": plugin.mode, "destination": [
            destination(*where) for where in plugin.destinations]})
    processes = [process["name"] for process in ipfix["selectionProcess"]]
    ipfix["observationPoint"].append({
        "name": meter.interface, "observationDomainId": meter.domain, "ifName": [meter.interface],
        "direction": meter.direction, "selectionProcess": processes})
    return ipfix


def links_of(meter: Meter) -> Iterator[Entry]:
    """A link from each destination that is the first plugin's first one; says which others lead out of the network."""
    collector = meter.plugins[0].destinations[0][:2]
    for plugin in meter.plugins:
        for where in plugin.destinations:
            if where[:2] == collector:
                yield {"device": "meter", "exportingProcess": plugin.name, "destination": "%s port %s" % where[:2],
                       "toDevice": "collector", "toProcess": "collector"}
            else:
                meter.told.append("%s port %s has no link: what is sent there leaves the network; where your collector "
                                  "receives it too, add a link" % where[:2])


def key_of(meter: Meter, ipfix: Entry) -> list[Entry]:
    """The address that is reported by where no key is asked for, or what records have instead."""
    axes = [field["name"] for cache in ipfix["cache"] for kind in cache if kind.endswith("Cache")
            for field in cache[kind]["cacheLayout"]["cacheField"] if field["name"] in elements.AXES]
    if not axes:
        raise Unusable("no packet passes the filter, or records have no axis; set filter and flow keys otherwise")
    for axis in ("sourceIPv4Address", "sourceIPv6Address", "destinationIPv4Address", "destinationIPv6Address"):
        if axis in axes:
            return [{"ieName": axis}]
    return [{"ieName": axes[0]}]


def unread_by(key: list[Entry], ipfix: Entry) -> Iterator[str]:
    """The caches whose records don't have the key."""
    wanted = {elements.axis_of(field["ieName"]) for field in key}
    for cache in ipfix["cache"]:
        kind = next(kind for kind in cache if kind.endswith("Cache"))
        if not wanted <= {field["name"] for field in cache[kind]["cacheLayout"]["cacheField"]}:
            yield cache["name"]


def check_names(meter: Meter) -> None:
    """Refuses what can't be a name of the document, or would occur twice there."""
    names = [plugin.name for plugin in meter.plugins]
    for name in names + [meter.interface] + [where[0] for plugin in meter.plugins for where in plugin.destinations]:
        if not cells.is_name(name):
            raise Unusable("%r is no name; write 1 to 255 octets without white space at either end" % name)
    for name in names:
        if names.count(name) > 1:
            raise Unusable("plugin %s occurs twice; give each a name of its own, as nfprobe[one]" % name)
    for plugin in meter.plugins:
        for where in plugin.destinations:
            if plugin.destinations.count(where) > 1:
                raise Unusable("destination %s port %s occurs twice; remove one of them" % where[:2])


def network_of(meter: Meter, key: list[Entry] | None) -> Entry:
    """The network document of a meter, with a key of the report or nothing."""
    check_names(meter)
    ipfix = meter_of(meter)
    usual = key_of(meter, ipfix)
    key = key or usual
    names = ", ".join(field["ieName"] for field in key) or "nothing"
    meter.told.append("the report is by %s; --key ELEMENTS asks for another" % names)
    unread = list(unread_by(key, ipfix))
    if unread:
        meter.told.append("records of %s don't have the report's key and are unassigned there: declare traffic that "
                          "doesn't come to them, or ask for a key that all records have" % ", ".join(unread))
    return {
        "devices": [{"name": "meter", "config": {MODULE: ipfix}},
                    {"name": "collector", "config": {MODULE: {"collectingProcess": [{"name": "collector"}]}}}],
        "links": list(links_of(meter)),
        "report": {"device": "collector", "collectingProcess": "collector", "key": key},
    }
