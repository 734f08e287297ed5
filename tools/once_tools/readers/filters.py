"""Filters before a meter, as selection processes that do not overlap.

A point hands each packet to all its selection processes, so two that overlap count a packet twice. A `filterMatch` has
one value or prefix, so a region may take many; above MOST_SELECTIONS it is not carried over.
"""
from __future__ import annotations

from dataclasses import dataclass, field
from typing import Sequence

from once_tools import boxes
from once_tools.boxes import Box, MOST_SELECTIONS, TooManyBoxes
from once_tools.model import Place, Selection


@dataclass
class Term:
    """A term of an ordered filter. `boxes` are the packets that its conditions hold for; they may overlap. `samples`
    says that it meters them, `ends` that later terms do not see them."""

    name: str
    boxes: list[Box]
    samples: bool
    ends: bool
    place: Place
    earlier: list[str] = field(default_factory=list)


@dataclass
class Sampled:
    """What a term meters: its own packets that no earlier term has taken or metered. `cut_by` are the earlier terms
    that took some of them."""

    term: Term
    region: list[Box]
    cut_by: list[Term]


def sampled(terms: Sequence[Term], version: int) -> list[Sampled]:
    """Returns what each sampling term of an ordered filter meters, of packets of one version of IP.

    Raises TooManyBoxes.
    """
    left = [boxes.family(version)]
    metered: list[Box] = []
    found: list[Sampled] = []
    for place, term in enumerate(terms):
        reached = boxes.common(boxes.disjoint(term.boxes), left)
        if term.samples:
            region = boxes.difference(reached, metered)
            metered = metered + region
            found.append(Sampled(term, region, [one for one in terms[:place] if _took(one, term)]))
        if term.ends:
            left = boxes.difference(left, reached)
    return found


def _took(earlier: Term, term: Term) -> bool:
    """Returns whether an earlier term took packets that the later one has conditions for."""
    return earlier.ends and bool(boxes.common(earlier.boxes, boxes.disjoint(term.boxes)))


def selections(name: str, region: Sequence[Box], cache: str, place: Place,
               most: int = MOST_SELECTIONS) -> list[Selection]:
    """Returns the selection processes of a region, named `NAME 1`, `NAME 2`, .., in the order of the region.

    Raises TooManyBoxes if they are more than `most`.
    """
    found = boxes.matches(_fewest(region), most)
    return [Selection(f"{name} {number}", match, cache, place) for number, match in enumerate(found, 1)]


def whole_family(name: str, version: int, cache: str, place: Place) -> Selection:
    """Returns the selection process of all packets of one version of IP."""
    return Selection(name, {"ipVersion": str(version)}, cache, place)


def _fewest(region: Sequence[Box]) -> Sequence[Box]:
    """Returns the region as it is, or joined if that takes fewer selection processes."""
    joined = boxes.joined(region)
    fewer = sum(map(boxes.selection_count, joined)) < sum(map(boxes.selection_count, region))
    return joined if fewer else region


def too_many(error: TooManyBoxes) -> tuple[str, str]:
    """Returns what to say, and what to do, about a filter that takes too many selection processes."""
    says = (f"the filter would take {error.count} selection processes, and at most {MOST_SELECTIONS} are written; the "
            f"document "
            "meters all packets of the family, so it counts packets that the device leaves out")
    return says, "filter by single values and prefixes, or accept this and declare only traffic that passes the filter"
