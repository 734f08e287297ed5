"""Findings that a report must have, as `findings.expected` of a case says them.

A line is `GRADE FILE:LINE[,LINE..] KEYWORD | KEYWORD ..`: a finding of this grade, at one of these lines of the file, whose
line in the report has each keyword, whatever its case. `FILE` alone is a finding about the file as a whole, `-` one without
a place. A line `COMMAND STATUS` (`import 0`, `audit --faithful 2`) is the exit status of a command of `once-import`. A line
that begins with `#` says why the next one is expected.
"""
from __future__ import annotations

from dataclasses import dataclass
from pathlib import Path
from typing import Any, Iterable, Mapping

from once_tools.model import Finding, Grade, Place
from once_tools.report import line_of

GRADES = sorted((one.value for one in Grade), key=len, reverse=True)
COMMANDS = ("import", "audit")


@dataclass(frozen=True)
class Wanted:
    """A finding that must be in a report; `line` is that of `findings.expected`."""

    grade: str
    file: str
    lines: frozenset[int]
    keywords: tuple[str, ...]
    line: str

    def fits(self, finding: Finding) -> bool:
        """Returns whether this is the finding."""
        if finding.grade.value != self.grade or finding.place.file != self.file:
            return False
        said = line_of(finding).lower()
        return finding.place.line in self.lines and all(one in said for one in self.keywords)


@dataclass(frozen=True)
class Expectation:
    """What is expected of a case: findings, and a status for each command."""

    wanted: tuple[Wanted, ...]
    statuses: Mapping[str, int]


def wanted_of(line: str) -> Wanted:
    """Returns the finding of a line."""
    grade = next((one for one in GRADES if line.startswith(one + " ")), None)
    assert grade, f"no grade: {line}"
    place, _, rest = line[len(grade) + 1:].partition(" ")
    file, _, lines = place.partition(":") if place != "-" else ("", "", "")
    keywords = tuple(one.strip().lower() for one in rest.split("|"))
    assert all(keywords), f"no keyword: {line}"
    return Wanted(grade, file, frozenset(int(one) for one in (lines or "0").split(",")), keywords, line)


def expectation(folder: Path) -> Expectation:
    """Returns what is expected of the case in a folder."""
    wanted, statuses = [], {}
    for line in (folder / "findings.expected").read_text(encoding="utf-8").splitlines():
        if line.split(" ", 1)[0] in COMMANDS:
            command, _, status = line.rpartition(" ")
            statuses[command] = int(status)
        elif line and not line.startswith("#"):
            wanted.append(wanted_of(line))
    return Expectation(tuple(wanted), statuses)


def finding_of(entry: Mapping[str, Any]) -> Finding:
    """Returns the finding of an object of a report in JSON."""
    return Finding(Grade(entry["grade"]), Place(entry["file"], entry["line"], entry["text"]), entry["says"], entry["todo"],
                   device=entry["device"])


def differences(wanted: Iterable[Wanted], findings: Iterable[Finding]) -> list[str]:
    """Returns the expected findings that are missing, and the findings above notes that nobody expects."""
    wanted, findings = list(wanted), list(findings)
    missing = [f"missing: {one.line}" for one in wanted if not any(one.fits(each) for each in findings)]
    above = [one for one in findings if one.grade is not Grade.NOTE]
    return missing + [f"not expected: {line_of(one)}" for one in above if not any(each.fits(one) for each in wanted)]
