"""Reports: findings with their grades as text or as JSON, and the exit status they make."""
from __future__ import annotations

import json
from dataclasses import replace
from typing import Iterable, Sequence

from once_tools.model import Finding, Grade, Place
from once_tools.project import Accept

NO_DOCUMENT, FAILED = 2, 5
ORDER = [Grade.WRONG, Grade.NOT_CARRIED_OVER, Grade.WARNING, Grade.PREMISE, Grade.NOTE]
LONGEST = 160


def printable(text: str) -> str:
    """Returns a text in which control characters and surrogates are escaped."""
    return "".join(one if one.isprintable() else one.encode("unicode_escape").decode() for one in text)


def counted(number: int, one: str, more: str) -> str:
    """Returns a number with its noun."""
    return f"{number} {one if number == 1 else more}"


def cited(text: str) -> str:
    """Returns the words of a line as a report cites them; a long line is cut."""
    text = printable(text)
    return text if len(text) <= LONGEST else text[:LONGEST] + " .."


def where(place: Place) -> str:
    """Returns `FILE:LINE`, or `FILE` for a file as a whole."""
    return f"{printable(place.file)}:{place.line}" if place.line else printable(place.file)


def is_accepted(finding: Finding, accepts: Iterable[Accept]) -> bool:
    """Returns whether a project accepts what was not carried over."""
    if finding.grade is not Grade.NOT_CARRIED_OVER:
        return False
    return any(one.topic is finding.topic and one.device in ("*", finding.device) for one in accepts)


def sentence(finding: Finding) -> str:
    """Returns what a finding says, and what to do."""
    return printable(finding.says + (f"; {finding.todo}" if finding.todo else ""))


def line_of(finding: Finding, accepted: bool = False) -> str:
    """Returns `GRADE FILE:LINE: 'WORDS OF THE LINE': sentence; what to do`."""
    grade = "accepted" if accepted else finding.grade.value
    place = where(finding.place) or printable(finding.device)
    head = f"{grade} {place}: " if place else f"{grade}: "
    words = f"'{cited(finding.place.text)}': " if finding.place.text else ""
    return head + words + sentence(finding)


def entry_of(finding: Finding, accepted: bool) -> dict[str, object]:
    """Returns a finding as an object of JSON."""
    return {"grade": finding.grade.value, "accepted": accepted, "device": finding.device, "file": finding.place.file,
            "line": finding.place.line, "text": finding.place.text, "says": finding.says, "todo": finding.todo,
            "topic": finding.topic.value, "number": finding.number}


def folded(findings: Iterable[Finding]) -> list[tuple[Finding, list[int]]]:
    """Returns the findings, of those that differ by their lines alone the first with the other lines."""
    found: dict[Finding, tuple[Finding, list[int]]] = {}
    for one in findings:
        key = replace(one, place=replace(one.place, line=0), exporters=())
        if key in found and one.place.text:
            found[key][1].append(one.place.line)
        else:
            found.setdefault(key, (one, []))
    return list(found.values())


def also(lines: list[int]) -> str:
    """Returns the other lines that a finding speaks of, in words."""
    if not lines:
        return ""
    shown = ", ".join(str(line) for line in lines[:12]) + (", .." if len(lines) > 12 else "")
    return f" (also line{'s' if len(lines) > 1 else ''} {shown})"


class Report:
    """The findings of a project, worst first, and what an answer means."""

    def __init__(self, findings: Iterable[Finding], accepts: Sequence[Accept] = (), meaning: Sequence[str] = ()) -> None:
        unique = dict.fromkeys(findings)
        self.findings = sorted(unique, key=lambda one: ORDER.index(one.grade))
        self.accepts, self.meaning = accepts, meaning

    def accepted(self, finding: Finding) -> bool:
        """Returns whether the project accepts the finding."""
        return is_accepted(finding, self.accepts)

    @property
    def status(self) -> int:
        """Returns 5 if a file cannot be read, 2 if no document can be made, 1 if something was not carried over and not
        accepted, otherwise 0."""
        wrong = [one for one in self.findings if one.grade is Grade.WRONG]
        if wrong:
            return FAILED if any(one.is_failure for one in wrong) else NO_DOCUMENT
        return int(any(one.grade is Grade.NOT_CARRIED_OVER and not self.accepted(one) for one in self.findings))

    def lines(self) -> list[str]:
        """Returns a line for each finding; equal lines of a file are one line, with their numbers."""
        lines = [line_of(one, self.accepted(one)) + also(others) for one, others in folded(self.findings)]
        return list(dict.fromkeys(lines))

    def text(self) -> str:
        """Returns the report as text."""
        lines = self.lines()
        if self.meaning:
            lines += ["", *self.meaning] if lines else list(self.meaning)
        return "".join(line + "\n" for line in lines)

    def json(self) -> str:
        """Returns the report as an object of JSON."""
        findings = [entry_of(one, self.accepted(one)) for one in self.findings]
        document = {"status": self.status, "findings": findings, "meaning": list(self.meaning)}
        return json.dumps(document, indent=1, ensure_ascii=False) + "\n"


def of_device(findings: Iterable[Finding], device: str) -> list[Finding]:
    """Returns the findings with the device's name, where they have none."""
    return [one if one.device else replace(one, device=device) for one in findings]
