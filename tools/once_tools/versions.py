"""The versions of IP that a report speaks of: a key such as `source` gives a pair of documents for each of them."""
from __future__ import annotations

from dataclasses import dataclass, replace

from once_tools.keys import KeyField, is_generic, key_of
from once_tools.model import Finding, TrafficClass
from once_tools.project import Report


@dataclass(frozen=True)
class Edition:
    """A pair of documents: the folder below the output, the version of IP it speaks of (None: any), the report's key."""

    folder: str
    version: int | None
    key: tuple[KeyField, ...]


def editions_of(report: Report, findings: list[Finding]) -> list[Edition]:
    """Returns the pairs of documents that a report's key asks for."""
    if not any(is_generic(text) for text in report.key):
        return [Edition("", None, tuple(key_of(report.key, None, report.place, findings)))]
    return [Edition(f"ipv{version}", version, tuple(key_of(report.key, version, report.place, findings)))
            for version in (4, 6)]


def versions_of(one: TrafficClass) -> set[int]:
    """Returns the versions of IP that packets of a class may have."""
    spelled = one.region.get("ipVersion")
    if spelled is not None:
        low, _, high = spelled.partition("-")
        if low.isdigit() and (not high or high.isdigit()):
            return {version for version in (4, 6) if int(low) <= version <= int(high or low)}
    found = {4, 6}
    for axis in one.region:
        if "IPv4" in axis:
            found &= {4}
        elif "IPv6" in axis:
            found &= {6}
    return found


def classes_of(classes: list[TrafficClass], version: int | None) -> list[TrafficClass]:
    """Returns the classes of a version, each cut to it."""
    if version is None:
        return classes
    return [replace(one, region={"ipVersion": str(version), **{axis: value for axis, value in one.region.items()
                                                               if axis != "ipVersion"}})
            for one in classes if version in versions_of(one)]
