"""Classes `others`: what no class above them holds, cut into boxes."""
from __future__ import annotations

from dataclasses import replace

from once_tools.boxes import Box, TooManyBoxes, difference, joined, read_region, spell_region
from once_tools.model import Finding, Grade, Place, TrafficClass
from once_tools.versions import versions_of


def boxes_of(one: TrafficClass) -> list[Box]:
    """Returns the packets of a class as boxes, one for each version of IP that they may have."""
    whole = read_region(one.region)
    return [whole.cut("ipVersion", (version, version)) for version in sorted(versions_of(one))]


def cut(one: TrafficClass, above: list[TrafficClass]) -> list[TrafficClass]:
    """Returns a class without what classes above it hold, as a class for each box."""
    held = [box for each in above for box in boxes_of(each)]
    boxes = joined(difference(boxes_of(one), held))
    return [replace(one, name=one.name if len(boxes) == 1 else f"{one.name} {number}", region=spell_region(box))
            for number, box in enumerate(boxes, 1)]


def cut_others(classes: list[TrafficClass], others: set[Place], findings: list[Finding]) -> list[TrafficClass]:
    """Returns the classes; those of the places `others` hold what no class above them holds."""
    found: list[TrafficClass] = []
    for one in classes:
        if one.place not in others:
            found.append(one)
            continue
        above = [each for each in found if each.place != one.place or each.region != one.region]
        try:
            parts = cut(one, above)
        except TooManyBoxes as why:
            findings.append(Finding(Grade.WRONG, one.place, f"what no class above '{one.name}' holds has more than "
                                    f"{why.count} parts", "declare classes with fewer regions above it"))
            continue
        if not parts:
            findings.append(Finding(Grade.NOTE, one.place, f"classes above '{one.name}' hold all its packets: it is left "
                                    "out"))
        found += parts
    return found
