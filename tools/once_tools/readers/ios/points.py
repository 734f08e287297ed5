"""Observation points: the attachments of monitors, put together by monitor, direction, family and sampler."""
from __future__ import annotations

from dataclasses import dataclass

from once_tools.model import Direction, Place, Point, Selection, Topic
from once_tools.readers.ios.interfaces import Attachment
from once_tools.readers.ios.monitors import Sampler
from once_tools.readers.notes import Notes

DIRECTIONS = {"input": Direction.INGRESS, "output": Direction.EGRESS}
MOST_INTERFACES = 256


@dataclass(frozen=True)
class Variant:
    """Attachments that make one selection process."""

    monitor: str
    family: int
    sampler: str


def variant_of(one: Attachment, samplers: dict[str, Sampler]) -> Variant:
    """Returns the variant of an attachment; a sampler of all packets is none."""
    sampler = samplers.get(one.sampler)
    return Variant(one.monitor, one.family, "" if sampler and sampler.rate == 1 else one.sampler)


def suffix_of(variant: Variant, variants: set[Variant]) -> str:
    """Returns what distinguishes a variant from the others of its monitor."""
    others = [one for one in variants if one.monitor == variant.monitor]
    suffix = f" IPv{variant.family}" if len({one.family for one in others}) > 1 else ""
    return suffix + (f" {variant.sampler}" if variant.sampler and len({one.sampler for one in others}) > 1 else "")


def sampling_of(sampler: Sampler | None, name: str) -> dict[str, object] | None:
    """Returns the selector of a sampler, for documents that keep it."""
    if not name:
        return None
    rate = sampler.rate if sampler and sampler.rate else 2
    if sampler is None or sampler.is_random:
        return {"name": name, "sampRandOutOfN": {"size": 1, "population": rate}}
    return {"name": name, "sampCountBased": {"packetInterval": 1, "packetSpace": rate - 1}}


def report_sampler(one: Attachment, samplers: dict[str, Sampler], notes: Notes) -> None:
    """Reports the sampler of an attachment."""
    sampler = samplers.get(one.sampler)
    if sampler and sampler.rate == 1:
        notes.note(one.place, f"the sampler takes 1 out of 1 ({sampler.place.file}:{sampler.place.line}): all packets")
        return
    plain = one.place.text.replace(f"sampler {one.sampler} ", "")
    if sampler and sampler.rate:
        rate = (f"one packet in {sampler.rate} ({sampler.place.file}:{sampler.place.line}) is metered", f"{sampler.rate}")
    else:
        rate = (f"there is no rate of sampler {one.sampler}: how many packets are metered is not known", "its rate")
    notes.lost(one.place, f"{rate[0]}. A total over a sample is not exact (108). The document meters all packets: a "
                          f"certificate then says that each packet is offered to one sampler, and totals times {rate[1]} "
                          f"are estimates", f"write '{plain}', or name the device under [accept] sampler", Topic.SAMPLER, 108)


def name_of(monitor: str, direction: str, suffix: str, is_family_6: bool) -> str:
    """Returns the name of a point."""
    if monitor:
        return f"{monitor} {direction}{suffix}"
    ip = "ipv6" if is_family_6 else "ip"
    return f"{ip} flow {'ingress' if direction == 'input' else 'egress'}"


def points_of(attached: list[Attachment], samplers: dict[str, Sampler], cache_of: dict[tuple[str, int], str]) -> list[Point]:
    """Returns the points of all attachments, in the order of their first lines."""
    variants = {variant_of(one, samplers) for one in attached}
    groups: dict[tuple[Variant, str], list[Attachment]] = {}
    for one in attached:
        groups.setdefault((variant_of(one, samplers), one.direction), []).append(one)
    found: list[Point] = []
    for (variant, direction), members in groups.items():
        suffix = suffix_of(variant, variants)
        cache = cache_of[(variant.monitor, variant.family)]
        selection = Selection(cache + (suffix if variant.monitor else ""), {"ipVersion": str(variant.family)}, cache,
                              members[0].place)
        name = name_of(variant.monitor, direction, suffix, variant.family == 6)
        interfaces: dict[str, Place] = {}
        for one in members:
            interfaces.setdefault(one.interface, one.place)
        found.append(Point(name, list(interfaces), DIRECTIONS[direction], [selection], members[0].place,
                           list(interfaces.values()), sampling_of(samplers.get(variant.sampler), variant.sampler)))
    return found
