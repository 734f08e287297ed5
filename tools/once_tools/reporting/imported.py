"""The report that `once-import PROJECT --format json` prints, read again."""
from __future__ import annotations

import json
from dataclasses import dataclass
from pathlib import Path

from once_tools.model import Finding, Grade, Place, Unusable
from once_tools.network_view import Json, entries, table, texts
from once_tools.report import ORDER, sentence, where
from once_tools.report_forms import RULES


@dataclass(frozen=True)
class Imported:
    """A finding of the importer, in texts."""

    grade: str
    meaning: str
    where: str
    text: str
    says: str


@dataclass(frozen=True)
class ImportReport:
    """The importer's findings, worst first, and what it says an answer means."""

    name: str
    findings: tuple[Imported, ...]
    meaning: tuple[str, ...]

    @property
    def grades(self) -> dict[str, str]:
        """Returns the grades of the findings, with what each means."""
        return {one.grade: one.meaning for one in self.findings}


def finding_of(entry: Json) -> Finding:
    """Returns the finding that an entry is; raises `ValueError` if its grade is none."""
    line = entry.get("line")
    place = Place(str(entry.get("file", "")), line if isinstance(line, int) else 0, str(entry.get("text", "")))
    return Finding(Grade(entry.get("grade")), place, str(entry.get("says", "")), str(entry.get("todo", "")), device=str(entry.get("device", "")))


def shown(finding: Finding, accepted: bool) -> Imported:
    """Returns a finding in texts."""
    grade, meaning = ("accepted", "not carried over, and accepted by the project") if accepted else (finding.grade.value, RULES[finding.grade])
    return Imported(grade, meaning, where(finding.place) or finding.device, finding.place.text, sentence(finding))


def read_report(path: Path) -> ImportReport:
    """Returns the report in a file; raises `Unusable` if it is none."""
    try:
        found = json.loads(path.read_bytes().decode("utf-8"))
        if not isinstance(found, dict) or not isinstance(found.get("findings"), list):
            raise ValueError("it has no list of findings")
        read = [(finding_of(one), bool(one.get("accepted"))) for one in entries(table(found).get("findings"))]
    except (ValueError, RecursionError) as error:
        line = error.lineno if isinstance(error, json.JSONDecodeError) else 0
        raise Unusable(Place(str(path), line), f"is no report of once-import: {error}", "write it by `once-import PROJECT --format json`") from error
    read.sort(key=lambda one: ORDER.index(one[0].grade))
    return ImportReport(str(path), tuple(shown(*one) for one in read), tuple(texts(table(found).get("meaning"))))
