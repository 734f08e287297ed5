"""Versions of NetFlow that carry IPv4 alone: their exporters send no records of IPv6."""
from __future__ import annotations

from once_tools.model import Cache, Device, Exporter, Finding, Grade
from once_tools.network import exporter_of

OLD = (1, 5, 7, 8)


def versions_into(device: Device, cache: Cache) -> set[str]:
    """Returns the versions of IP whose packets come to a cache."""
    return {one.match.get("ipVersion", "4-6") for point in device.points for one in point.selections if one.cache == cache.name}


def is_old(exporter: Exporter | None) -> bool:
    """Returns whether an exporter sends to each of its destinations in a version that carries IPv4 alone."""
    return exporter is not None and bool(exporter.destinations) and all(to.version in OLD for to in exporter.destinations)


def finding(device: Device, exporter: Exporter, grade: Grade, says: str) -> Finding:
    """Returns a finding at an exporter's first destination."""
    to = exporter.destinations[0]
    return Finding(grade, to.place, f"NetFlow version {to.version} carries IPv4 alone: {says}",
                   "export by IPFIX, or by NetFlow version 9", device=device.name)


def check_versions(device: Device) -> list[Finding]:
    """Takes exporters of old versions off caches of IPv6, and reports them."""
    found: list[Finding] = []
    for cache in device.caches:
        versions = versions_into(device, cache)
        for name in list(cache.exporters) if versions - {"4"} else []:
            exporter = exporter_of(device, name)
            olds = [to for to in exporter.destinations if to.version in OLD] if exporter else []
            if exporter and is_old(exporter) and versions == {"6"}:
                cache.exporters.remove(name)
                found.append(finding(device, exporter, Grade.WARNING, f"records of {cache.name} are not sent"))
            elif exporter and olds:
                found.append(finding(device, exporter, Grade.NOT_CARRIED_OVER,
                                     f"records of {cache.name} of IPv6 are not sent there, but the document sends them"))
    return found
