"""What can reach the report and what cannot: lost destinations, keys that cannot be read, and findings that do not
bear on the report."""
from __future__ import annotations

from dataclasses import replace

from once_tools.endpoints import Endpoint, normal
from once_tools.keys import KeyField, missing, spelled
from once_tools.model import Cache, Destination, Device, Exporter, Finding, Grade, Place, Point
from once_tools.network import (Network, Process, cache_of, exporters_of_listener, is_leading, leading_exporters,
                                leading_listeners)


def known_ends(network: Network, to: Destination) -> str:
    """Returns where collectors listen, those at the destination's address first."""
    ends = [(normal(address) != normal(to.address), abs(port - to.port), f"{Endpoint(address, port)} ({device.name})")
            for device in network.devices for listener in device.listeners for address, port, _ in listener.listens]
    return ", ".join(text for _, _, text in sorted(ends)[:6]) or "none"


def others_lead(device: Device, exporter: Exporter, leading: set[Process]) -> bool:
    """Returns whether all that is given to an exporter reaches the report by another exporter too."""
    holders = [one.exporters for one in device.caches] + [exporters_of_listener(one) for one in device.listeners]
    fed = [names for names in holders if exporter.name in names]
    return bool(fed) and all(any((device.name, name) in leading for name in names if name != exporter.name)
                             for names in fed)


def report_destination(network: Network, device: Device, exporter: Exporter, to: Destination, leads: set[Process],
                       listeners: set[Process]) -> None:
    """Reports a destination from which nothing reaches the report, where something else does or should."""
    link = network.link_of(device.name, exporter.name, to.name)
    if link and (link.to_device, link.to_process) in listeners:
        if to.vrf:
            add(network, Grade.PREMISE, to.place, f"vrf {to.vrf} is taken to lead to {link.to_device}: addresses may mean "
                "another host in it", "", device, ())
        return
    collector = network.report[0]
    chooses = exporter.mode != "parallel" and (device.name, exporter.name) in leads
    first = next((one for one in exporter.destinations if one is not to), to)
    if chooses:
        lost = f"this is {link.to_device}, from which nothing reaches the report of {collector}" if link else \
            f"(port {to.port}) is no collector of the project"
        says = f"{lost}: while the first destination ({first.place.file}:{first.place.line}) is not used, packets are lost"
        todo = (f"have {link.to_device} forward what it receives ([[collectors]] forwards), or bill by a collector that "
                "receives from both") if link else f"add the collector; known are {known_ends(network, to)}"
        add(network, Grade.WARNING, to.place, says, todo, device, ())
    elif link is None:
        says = f"port {to.port} of this address is no collector of the project"
        copies = any(exporter.name in exporters_of_listener(one) for one in device.listeners)
        if copies or others_lead(device, exporter, leads) or (device.name, exporter.name) in leads:
            add(network, Grade.NOTE, to.place, f"{says}: there is no link. Known are {known_ends(network, to)}", "", device,
                ())
        else:
            add(network, Grade.WARNING, to.place,
                f"{says}, so what is sent there is lost, and {exporter.name} has no other destination: what it sends does "
                f"not reach the report of {collector}. Known are {known_ends(network, to)}",
                "point the exporter there, or add the collector under [[collectors]]", device, ())


def add(network: Network, grade: Grade, place: Place, says: str, todo: str, device: Device,
        exporters: tuple[str, ...]) -> None:
    network.findings.append(Finding(grade, place, says, todo, device=device.name, exporters=exporters))


def report_destinations(network: Network) -> None:
    """Reports all destinations whose records are lost to the report."""
    leads, listeners = leading_exporters(network), leading_listeners(network)
    for device in network.devices:
        for exporter in device.exporters:
            for to in exporter.destinations:
                if to.address and (device.name, to.name) != network.report:
                    report_destination(network, device, exporter, to, leads, listeners)


def record_key(cache: Cache) -> list[KeyField]:
    """Returns the fields of a cache's records that hold for all packets of a record."""
    return [(one.element, None) for one in cache.fields if one.is_key or cache.kind == "immediate"]


def is_of(point: Point, cache: str, versions: set[int]) -> bool:
    """Returns whether a point's packets of one of these versions come to a cache."""
    spelled = {str(one) for one in versions}
    return any(one.cache == cache and ("ipVersion" not in one.match or one.match["ipVersion"] in spelled)
               for one in point.selections)


def report_keys(network: Network, key: list[KeyField], versions: set[int]) -> None:
    """Reports caches and aggregations of packets of these versions from whose records the report's key cannot be read."""
    leads = leading_exporters(network)
    for device in network.devices:
        within = {name for one in device.listeners for name in one.local_exporters}
        for cache in device.caches:
            direct = [name for name in cache.exporters if (device.name, name) in leads and name not in within]
            lacks = missing(key, record_key(cache))
            if direct and lacks and any(is_of(point, cache.name, versions) for point in device.points):
                says = f"records of {cache.name} do not have {spelled(lacks)} as a key, and the report is by it: packets " \
                       "are counted under no key (unassigned)"
                add(network, Grade.WARNING, cache.place, says, "add the field to the keys of the record, or ask for another "
                    "report", device, tuple(direct))
        for listener in device.listeners:
            for one in listener.aggregations:
                lacks = missing(key, list(one.key))
                if lacks and any((device.name, name) in leads for name in one.exporters):
                    says = f"this keeps {spelled(list(one.key))} alone, and the report is by {spelled(key)}: its records come " \
                           f"to {network.report[0]} without the key, so packets are counted under none (unassigned)"
                    add(network, Grade.WARNING, one.place, says, "keep the key of the report, or ask for another report",
                        device, ())


def report_unlinked(network: Network, device: Device, exporters: list[Exporter]) -> None:
    """Notes the destinations of exporters where no collector of the project listens."""
    for exporter in exporters:
        for to in exporter.destinations:
            if to.address and network.link_of(device.name, exporter.name, to.name) is None:
                add(network, Grade.NOTE, to.place, f"port {to.port} of this address is no collector of the project: there is "
                    f"no link, and nothing else of {exporter.name} bears on the report. Known are {known_ends(network, to)}",
                    "", device, ())


def prune(network: Network) -> None:
    """Takes out points that sample and do not lead to the report, with what they alone use: they cannot bear on it."""
    leading = leading_exporters(network)
    for device in network.devices:
        dropped = [one for one in device.points if one.sampling and not is_leading(device, one, leading)]
        if not dropped:
            continue
        device.points = [one for one in device.points if one not in dropped]
        used = {one.cache for point in device.points for one in point.selections}
        gone = {one.cache for point in dropped for one in point.selections} - used
        kept = {name for cache in device.caches if cache.name not in gone for name in cache.exporters}
        kept |= {name for one in device.listeners for name in exporters_of_listener(one)}
        unused = {name for one in gone for cache in [cache_of(device, one)] if cache for name in cache.exporters} - kept
        device.caches = [one for one in device.caches if one.name not in gone]
        report_unlinked(network, device, [one for one in device.exporters if one.name in unused])
        device.exporters = [one for one in device.exporters if one.name not in unused]
        network.links = [one for one in network.links if one.device != device.name or one.exporter not in unused]


LOWERED = (Grade.NOT_CARRIED_OVER, Grade.PREMISE, Grade.WARNING)


def lowered(findings: list[Finding], leading: set[Process]) -> list[Finding]:
    """Returns the findings, those that bear on no exporter that leads to the report as notes."""
    found = []
    for one in findings:
        bears = not one.exporters or any((one.device, name) in leading for name in one.exporters)
        if one.grade in LOWERED and not bears:
            names = " and ".join(dict.fromkeys(one.exporters))
            says = f"{one.says} (this is sent by {names} alone, from which nothing reaches the report)"
            one = replace(one, grade=Grade.NOTE, says=says, todo="")
        found.append(one)
    return found
