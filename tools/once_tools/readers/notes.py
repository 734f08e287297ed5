"""Findings of a reader, collected one by one."""
from __future__ import annotations

from dataclasses import replace

from once_tools.model import Finding, Grade, Place, Topic


class Notes:
    """A list of findings with a method for each grade."""

    def __init__(self) -> None:
        self.findings: list[Finding] = []

    def add(self, grade: Grade, place: Place, says: str, todo: str = "", topic: Topic = Topic.OTHER,
            number: int | None = None) -> None:
        self.findings.append(Finding(grade, place, says, todo, topic, number))

    def note(self, place: Place, says: str, todo: str = "") -> None:
        self.add(Grade.NOTE, place, says, todo)

    def premise(self, place: Place, says: str, todo: str = "", number: int | None = None) -> None:
        self.add(Grade.PREMISE, place, says, todo, Topic.OTHER if number is None else Topic.COUNTERS, number)

    def lost(self, place: Place, says: str, todo: str = "", topic: Topic = Topic.OTHER, number: int | None = None) -> None:
        self.add(Grade.NOT_CARRIED_OVER, place, says, todo, topic, number)

    def warning(self, place: Place, says: str, todo: str = "") -> None:
        self.add(Grade.WARNING, place, says, todo)

    def wrong(self, place: Place, says: str, todo: str = "") -> None:
        self.add(Grade.WRONG, place, says, todo)

    def unknown(self, place: Place, section: str) -> None:
        """Adds that a statement of a section is not known."""
        self.lost(place, f"this statement of {section} is not known here, and the document does not have it",
                  "remove it if it is not needed, or accept it under [accept] unknown if it does not bear on what is "
                  "metered", Topic.UNKNOWN)

    def bearing_on(self, exporters: tuple[str, ...], used: bool = True) -> list[Finding]:
        """Returns the findings as bearing on these exporters; of a thing that is not used, as notes."""
        if used:
            return [replace(one, exporters=exporters) for one in self.findings]
        return [replace(one, grade=Grade.NOTE, says=one.says + " (not in use)", todo="") for one in self.findings]
