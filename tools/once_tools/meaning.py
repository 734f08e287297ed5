"""What a certificate means for a network, premise by premise, in plain words."""
from __future__ import annotations

from once_tools.keys import KeyField, spelled
from once_tools.model import Finding, Grade, TrafficClass
from once_tools.network import Network, is_leading, leading_exporters
from once_tools.report import where


def metering(network: Network) -> list[str]:
    """Returns in words what is metered for the report."""
    leading = leading_exporters(network)
    found = []
    for device in network.devices:
        count = len({name for point in device.points if is_leading(device, point, leading) for name in point.interfaces})
        if count:
            found.append(f"{device.name} ({count} interface{'s' if count > 1 else ''})")
    return found


def subject(network: Network, key: tuple[KeyField, ...], classes: list[TrafficClass]) -> str:
    """Returns what a certificate says of a pair of documents."""
    counted = [one.name for one in classes if not one.exempt]
    names = ", ".join(f"'{name}'" for name in counted[:8]) + (", .." if len(counted) > 8 else "")
    exempt = " Exempt traffic is not counted." if len(counted) < len(classes) else ""
    return (f"The totals of {network.report[0]} by {spelled(list(key))} are the plain sums over the packets of the declared "
            f"traffic ({names or 'none that is counted'}): each packet is counted exactly once.{exempt}")


STANDING = [
    "Totals are read after all caches have been exported.",
    "The configurations are what the devices run: a change after they were taken is not seen.",
]


def premises(findings: list[Finding]) -> list[str]:
    """Returns the premises of this network, and what was not carried over, each with its line."""
    found = []
    for one in findings:
        if one.grade in (Grade.PREMISE, Grade.NOT_CARRIED_OVER):
            at = where(one.place) or one.device
            found.append(f"{at}: {one.says}." if one.grade is Grade.PREMISE else
                         f"{at}, not carried over: {one.says}.")
    return list(dict.fromkeys(found))


def meaning_of(network: Network, pairs: list[tuple[tuple[KeyField, ...], list[TrafficClass]]], paths: list[str],
               findings: list[Finding]) -> list[str]:
    """Returns the lines that end a report; `pairs` are the key and the classes of each pair of documents, `paths` the
    premises of the declared paths."""
    lines = ["What a certificate means here:"]
    lines += [f"  {subject(network, key, classes)}" for key, classes in pairs]
    lines += [f"  Metered for it: {', '.join(metering(network)) or 'no device'}.", "It presumes:"]
    return lines + [f"  {number}. {text}" for number, text in enumerate([*paths, *STANDING, *premises(findings)], 1)]
