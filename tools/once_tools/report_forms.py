"""The forms in which reports are printed: those of other programs are annotations of GitHub, SARIF 2.1.0 (OASIS), and JUnit's XML."""
from __future__ import annotations

import json
import os
from typing import Iterable
from xml.etree import ElementTree

from once_tools.model import Finding, Grade
from once_tools.report import Report, line_of, printable, sentence

FORMATS = ("text", "json", "github", "sarif", "junit")
LEVELS = {Grade.WRONG: "error", Grade.NOT_CARRIED_OVER: "error", Grade.WARNING: "warning"}
RULES = {
    Grade.WRONG: "no documents can be written",
    Grade.NOT_CARRIED_OVER: "the documents say something other than the device does",
    Grade.WARNING: "the audit will refute this, or something is metered nowhere",
    Grade.PREMISE: "carried over under a condition that the configuration does not show",
    Grade.NOTE: "carried over exactly, or it cannot bear on the report",
}
SCHEMA = "https://json.schemastore.org/sarif-2.1.0.json"
HOME = "https://www.rfc-editor.org/rfc/rfc6728"


def file_of(finding: Finding, folder: str) -> str:
    """Returns the finding's file as it is cited from `folder`, that of the project; an empty text if it has none."""
    return os.path.normpath(os.path.join(folder, finding.place.file)) if finding.place.file else ""


def annotation_of(finding: Finding, accepted: bool, folder: str = "") -> str:
    """Returns a finding as a workflow command of GitHub; files are cited from `folder`."""
    level = "notice" if accepted else LEVELS.get(finding.grade, "notice")
    message = line_of(finding, accepted).replace("%", "%25")
    file = printable(file_of(finding, folder)).replace("%", "%25").replace(",", "%2C").replace(":", "%3A")
    place = f" file={file},line={finding.place.line or 1}" if file else ""
    return f"::{level}{place}::{message}"


def github(report: Report, folder: str = "") -> str:
    """Returns a report as workflow commands of GitHub; files are cited from `folder`, that of the project."""
    return "".join(annotation_of(one, report.accepted(one), folder) + "\n" for one in report.findings)


def form(report: Report, name: str, folder: str = "") -> str:
    """Returns a report in one of `FORMATS`."""
    if name == "json":
        return report.json()
    if name == "junit":
        return junit(report)
    if name == "sarif":
        return sarif(report, folder)
    return github(report, folder) if name == "github" else report.text()


def rule_of(grade: Grade) -> str:
    """Returns the identifier of the rule that findings of a grade break."""
    return grade.value.replace(" ", "-")


def sarif(report: Report, folder: str) -> str:
    """Returns the report as a log of SARIF with one run; what the project accepts is suppressed there."""
    rules = [{"id": rule_of(grade), "shortDescription": {"text": text}, "defaultConfiguration": {"level": LEVELS.get(grade, "note")}}
             for grade, text in RULES.items()]
    tool = {"driver": {"name": "once-import", "informationUri": HOME, "rules": rules}}
    results = [result_of(one, report.accepted(one), folder) for one in report.findings]
    notes = [{"level": "note", "message": {"text": text}} for text in report.meaning if text]
    invocation = {"executionSuccessful": report.status in (0, 1), "exitCode": report.status, "toolExecutionNotifications": notes}
    run = {"tool": tool, "invocations": [invocation], "results": results}
    return json.dumps({"$schema": SCHEMA, "version": "2.1.0", "runs": [run]}, indent=1, ensure_ascii=False) + "\n"


def result_of(finding: Finding, accepted: bool, folder: str) -> dict[str, object]:
    """Returns a finding as a result of SARIF."""
    found: dict[str, object] = {"ruleId": rule_of(finding.grade), "level": LEVELS.get(finding.grade, "note"), "message": {"text": sentence(finding)}}
    if finding.place.file:
        place: dict[str, object] = {"artifactLocation": {"uri": file_of(finding, folder).replace(os.sep, "/")}}
        if finding.place.line:
            place["region"] = {"startLine": finding.place.line}
        found["locations"] = [{"physicalLocation": place}]
    if finding.device:
        found["properties"] = {"device": finding.device}
    if accepted:
        found["suppressions"] = [{"kind": "external", "justification": "accepted by the project"}]
    return found


def is_failure(finding: Finding, accepted: bool) -> bool:
    return finding.grade in LEVELS and not accepted


def junit(report: Report) -> str:
    """Returns the report as JUnit's XML: a test case for each device, which fails with each finding that is a warning or worse and not
    accepted, and one for the answer of an audit."""
    cases = by_device(report.findings)
    failed = {device: [one for one in found if is_failure(one, report.accepted(one))] for device, found in cases.items()}
    suite = ElementTree.Element("testsuite", {"name": "once-import", "tests": str(len(cases)), "errors": "0",
                                              "failures": str(sum(bool(found) for found in failed.values()))})
    for device, found in cases.items():
        case = ElementTree.SubElement(suite, "testcase", {"classname": "once-import", "name": device})
        if failed[device]:
            failure = ElementTree.SubElement(case, "failure", {"message": said(failed[device]), "type": failed[device][0].grade.value})
            failure.text = "\n".join(lines_of(report, failed[device]))
        rest = [one for one in found if one not in failed[device]]
        if rest:
            ElementTree.SubElement(case, "system-out").text = "\n".join(lines_of(report, rest))
    if report.meaning:
        ElementTree.SubElement(suite, "system-out").text = "\n".join(report.meaning)
    root = ElementTree.Element("testsuites")
    root.append(suite)
    ElementTree.indent(root, " ")
    return '<?xml version="1.0" encoding="UTF-8"?>\n' + ElementTree.tostring(root, encoding="unicode") + "\n"


def said(findings: list[Finding]) -> str:
    return f"{len(findings)} finding{'s' if len(findings) > 1 else ''}"


def lines_of(report: Report, findings: Iterable[Finding]) -> list[str]:
    return [line_of(one, report.accepted(one)) for one in findings]


def by_device(findings: Iterable[Finding]) -> dict[str, list[Finding]]:
    """Returns the findings by device, those of none under `project`; there is always one."""
    found: dict[str, list[Finding]] = {}
    for one in findings:
        found.setdefault(one.device or "project", []).append(one)
    return found or {"project": []}
