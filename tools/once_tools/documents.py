"""The documents of `once`: a network and the traffic that crosses it, as values of JSON."""
from __future__ import annotations

import json
from typing import Mapping

from once_tools.elements import COUNTERS
from once_tools.keys import KeyField
from once_tools.model import Aggregation, Cache, CacheField, Destination, Device, Exporter, Listener, Point, Selection, \
    TrafficClass
from once_tools.network import Link, Network
from once_tools.origin import AGGREGATION, ORIGIN, origin_of

Json = dict[str, object]
MODULE = "ietf-ipfix-psamp:ipfix"
# The settings that each kind of cache has in RFC 6728.
SETTINGS = {"immediate": (), "timeout": ("maxFlows", "activeTimeout", "idleTimeout"),
            "natural": ("maxFlows", "activeTimeout", "idleTimeout"), "permanent": ("maxFlows", "exportInterval")}


def filters_of(match: Mapping[str, str]) -> list[Json]:
    """Returns the selectors of a match."""
    if not match:
        return [{"name": "all", "selectAll": [None]}]
    return [{"name": name, "filterMatch": {"ieName": name, "value": value}} for name, value in match.items()]


def point_of(point: Point) -> Json:
    """Returns an observation point."""
    return {"name": point.name, "observationDomainId": point.domain, "ifName": point.interfaces,
            "direction": point.direction.value, "selectionProcess": [one.name for one in point.selections]}


def selection_of(selection: Selection, sampling: dict[str, object] | None) -> Json:
    """Returns a selection process."""
    selectors = filters_of(selection.match) + ([dict(sampling)] if sampling else [])
    entry: Json = {"name": selection.name, "selector": selectors}
    return {**entry, "cache": selection.cache} if selection.cache else entry


def field_of(field: CacheField, faithful: bool) -> Json:
    """Returns a field of a cache."""
    entry: Json = {"name": field.element, "ieName": field.element}
    if faithful and field.octets not in (None, 8) and field.element in COUNTERS:
        entry["ieLength"] = field.octets
    return {**entry, "isFlowKey": [None]} if field.is_key else entry


def fields_of(cache: Cache, faithful: bool) -> list[Json]:
    """Returns the fields of a cache; counters that the device does not have are added, unless documents are faithful."""
    there = {one.element for one in cache.fields}
    added = [] if faithful else [CacheField(name, False, cache.place) for name in COUNTERS if name not in there]
    fields = [one for one in cache.fields if one.element not in COUNTERS]
    counters = sorted([one for one in [*cache.fields, *added] if one.element in COUNTERS],
                      key=lambda one: COUNTERS.index(one.element))
    return [field_of(one, faithful) for one in [*fields, *counters]]


def cache_entry(cache: Cache, faithful: bool) -> Json:
    """Returns a cache."""
    settings: Json = {name: cache.settings[name] for name in SETTINGS[cache.kind] if name in cache.settings}
    settings["cacheLayout"] = {"cacheField": fields_of(cache, faithful)}
    return {"name": cache.name, f"{cache.kind}Cache": settings, "exportingProcess": cache.exporters}


def destination_of(to: Destination) -> Json:
    """Returns a destination."""
    if not to.address:
        return {"name": to.name, f"{to.transport}Exporter": {}}
    address: object = [to.address] if to.transport == "sctp" else to.address
    return {"name": to.name, f"{to.transport}Exporter": {"destinationIPAddress": address, "destinationPort": to.port}}


def exporter_entry(exporter: Exporter) -> Json:
    """Returns an exporting process."""
    return {"name": exporter.name, "exportMode": exporter.mode,
            "destination": [destination_of(one) for one in exporter.destinations]}


def key_entry(key: list[KeyField]) -> list[Json]:
    """Returns the fields of a key."""
    return [{"ieName": name} if length is None else {"ieName": name, "prefixLength": length} for name, length in key]


def aggregation_entry(one: Aggregation) -> Json:
    """Returns an aggregation."""
    entry: Json = {"name": one.name, "key": key_entry(one.key)}
    if one.match:
        entry["match"] = [{"ieName": name, "value": value} for name, value in one.match.items()]
    return {**entry, "exportingProcess": one.exporters}


def listener_entry(listener: Listener) -> Json:
    """Returns a collecting process."""
    entry: Json = {"name": listener.name}
    if listener.forwards:
        entry["exportingProcess"] = listener.forwards
    if listener.aggregations:
        entry[AGGREGATION] = [aggregation_entry(one) for one in listener.aggregations]
    return entry


def selections_of(device: Device) -> list[tuple[Selection, dict[str, object] | None]]:
    """Returns the selection processes of all points, one of each name, with the sampling of its point."""
    found: dict[str, tuple[Selection, dict[str, object] | None]] = {}
    for point in device.points:
        for one in point.selections:
            found.setdefault(one.name, (one, point.sampling))
    return list(found.values())


def config_of(device: Device, faithful: bool) -> Json:
    """Returns the configuration of a device."""
    selections = selections_of(device)
    lists: dict[str, list[Json]] = {
        "observationPoint": [point_of(one) for one in device.points],
        "selectionProcess": [selection_of(one, sampling if faithful else None) for one, sampling in selections],
        "cache": [cache_entry(one, faithful) for one in device.caches],
        "exportingProcess": [exporter_entry(one) for one in device.exporters],
        "collectingProcess": [listener_entry(one) for one in device.listeners],
    }
    config: Json = {MODULE: {name: entries for name, entries in lists.items() if entries}}
    origin = origin_of(device, [one for one, _ in selections])
    return {**config, ORIGIN: origin} if origin else config


def link_entry(link: Link) -> Json:
    """Returns a link."""
    return {"device": link.device, "exportingProcess": link.exporter, "destination": link.destination,
            "toDevice": link.to_device, "toProcess": link.to_process}


def is_needed(device: Device, named: set[str], network: Network) -> bool:
    """Returns whether a document must have a device: it meters or collects, or a path names it."""
    return bool(device.points or device.listeners) or device.name in named or device.name == network.report[0]


def needed(network: Network, classes: list[TrafficClass]) -> list[Device]:
    """Returns the devices that a document must have."""
    named = {one.device for each in classes for path in each.paths for one in path}
    return [one for one in network.devices if is_needed(one, named, network)]


def network_document(network: Network, key: list[KeyField], classes: list[TrafficClass], faithful: bool = False) -> Json:
    """Returns the network document."""
    devices = needed(network, classes)
    kept = {one.name for one in devices}
    return {
        "devices": [{"name": one.name, "config": config_of(one, faithful)} for one in devices],
        "links": [link_entry(one) for one in network.links if one.device in kept and one.to_device in kept],
        "report": {"device": network.report[0], "collectingProcess": network.report[1], "key": key_entry(key)},
    }


def class_entry(one: TrafficClass) -> Json:
    """Returns a class of traffic."""
    entry: Json = {"name": one.name, "region": dict(one.region)}
    if one.exempt:
        entry["exempt"] = [None]
    entry["paths"] = [[{"device": each.device, "interface": each.interface, "direction": each.direction.value}
                       for each in path] for path in one.paths]
    return entry


def traffic_document(classes: list[TrafficClass]) -> Json:
    """Returns the traffic document."""
    return {"classes": [class_entry(one) for one in classes]}


def text_of(document: Json) -> str:
    """Returns a document as text, a member a line."""
    return json.dumps(document, indent=1, ensure_ascii=False) + "\n"
