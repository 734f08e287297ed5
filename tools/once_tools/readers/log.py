"""Findings of a reader, as it comes across them."""
from __future__ import annotations

import difflib
from typing import Iterable, Sequence

from once_tools.model import Finding, Grade, Place, Topic

SAMPLES = ("the document meters all packets: a certificate then says that each packet is offered to one sampler, and "
           "totals "
           "times {rate} are estimates")


# Near names are looked up for this number of unknown statements; a text with more is of another kind.
MOST_NEAR = 200


class Log:
    """Collects the findings of one device, in the order of reading and each once."""

    def __init__(self, device: str) -> None:
        self.device = device
        self.findings: list[Finding] = []
        self.known: set[Finding] = set()
        self.unknowns = 0

    def add(self, grade: Grade, place: Place, says: str, todo: str = "", topic: Topic = Topic.OTHER,
            number: int | None = None, exporters: Iterable[str] = ()) -> None:
        """Adds a finding."""
        one = Finding(grade, place, says, todo, topic, number, self.device, tuple(exporters))
        if one not in self.known:
            self.known.add(one)
            self.findings.append(one)

    def note(self, place: Place, says: str, todo: str = "", number: int | None = None,
             exporters: Iterable[str] = ()) -> None:
        self.add(Grade.NOTE, place, says, todo, Topic.OTHER, number, exporters)

    def premise(self, place: Place, says: str, todo: str = "", topic: Topic = Topic.OTHER, number: int | None = None,
                exporters: Iterable[str] = ()) -> None:
        self.add(Grade.PREMISE, place, says, todo, topic, number, exporters)

    def lost(self, place: Place, says: str, todo: str = "", topic: Topic = Topic.OTHER, number: int | None = None,
             exporters: Iterable[str] = ()) -> None:
        """Adds what is not carried over."""
        self.add(Grade.NOT_CARRIED_OVER, place, says, todo, topic, number, exporters)

    def warning(self, place: Place, says: str, todo: str = "", exporters: Iterable[str] = ()) -> None:
        self.add(Grade.WARNING, place, says, todo, Topic.OTHER, None, exporters)

    def wrong(self, place: Place, says: str, todo: str = "") -> None:
        self.add(Grade.WRONG, place, says, todo)

    def unknown(self, place: Place, what: str, known: Sequence[str] = (), exporters: Iterable[str] = ()) -> None:
        """Adds a statement that is not known here, with the nearest known one."""
        self.unknowns += 1
        near = difflib.get_close_matches(what.lower()[:80], known, 1) if self.unknowns <= MOST_NEAR else []
        todo = f"correct it to `{near[0]}` if it is misspelled, " if near else "correct it if it is misspelled, "
        self.lost(place, f"`{what}` is not known here, so whether it bears on what is metered is not known either",
                  todo + "or accept it", Topic.UNKNOWN, None, exporters)

    def sampler(self, place: Place, rate: str, exporters: Iterable[str] = ()) -> None:
        """Adds a sampler that takes one packet of `rate`; a total over a sample is not exact."""
        self.lost(place, f"one packet out of {rate} is sampled, and a total over a sample is not exact; "
                  + SAMPLES.format(rate=rate), "meter every packet, or accept this", Topic.SAMPLER, 108, exporters)


def sampling(population: int) -> dict[str, object]:
    """Returns the selector of a sampler that takes one packet out of a number of packets (RFC 6728)."""
    return {"sampRandOutOfN": {"size": 1, "population": population}}
