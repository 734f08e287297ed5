"""The key of a report: that of the project, or the one that the collector stores by."""
from __future__ import annotations

import re
from dataclasses import replace
from typing import Iterable

from once_tools.keys import spelled
from once_tools.model import Device, Finding, Grade
from once_tools.project import Report
from once_tools.toml_table import nearest

Proposed = tuple[str, list[tuple[str, int | None]]]


def proposals(report: Report, collectors: list[Device], findings: list[Finding]) -> list[Proposed]:
    """Returns what the report's collector stores by, plugin by plugin, or of the plugin that is asked for."""
    device = next((one for one in collectors if one.name == report.collector), None)
    found: list[Proposed] = [(name, key) for name, key, _ in device.proposed_keys] if device else []
    if not report.plugin:
        return found
    if report.plugin not in [name for name, _ in found]:
        findings.append(Finding(Grade.WRONG, report.place, f"'{report.collector}' has no plugin '{report.plugin}' that stores",
                                nearest(report.plugin, [name for name, _ in found]) if found else "leave 'plugin' out"))
    return [one for one in found if one[0] == report.plugin]


def fields_of(texts: Iterable[str]) -> set[str]:
    """Returns the axes of a key, of whichever version of IP, without the lengths of prefixes."""
    return {re.sub(r"IPv[46]|Address|Prefix", "", text.partition("/")[0]) for text in texts}


def check_stored(report: Report, found: list[Proposed], findings: list[Finding]) -> None:
    """Reports fields of the key by which no plugin of the collector stores."""
    stored = [fields_of(name for name, _ in key) for _, key in found]
    lacks = [text for text in report.key if fields_of([text]) - {"ipVersion"}]
    lacks = [text for text in lacks if all(not fields_of([text]) <= one for one in stored)]
    if found and (lacks or not any(fields_of(report.key) - {"ipVersion"} <= one for one in stored)):
        plugins = "; ".join(f"{name} stores by {spelled(key)}" for name, key in found)
        findings.append(Finding(Grade.NOT_CARRIED_OVER, report.place, f"'{report.collector}' has no totals by "
                                f"{', '.join(lacks or report.key)}: {plugins}", "ask for a key that it stores by",
                                device=report.collector))


def with_key(report: Report, collectors: list[Device], findings: list[Finding]) -> Report:
    """Returns the report with its key; what is wrong is added to the findings."""
    found = proposals(report, collectors, findings)
    if report.key:
        check_stored(report, found, findings)
        return report
    if len(found) == 1:
        texts = tuple(name if length is None else f"{name}/{length}" for name, length in found[0][1])
        findings.append(Finding(Grade.NOTE, report.place, f"the report is by what plugin {found[0][0]} of '{report.collector}' "
                                f"stores by: {', '.join(texts)}", "write key = .. for another report"))
        return replace(report, key=texts)
    todo = 'add key = "source"'
    if found:
        todo = "add plugin = \"..\": " + "; ".join(f"{name} stores by {spelled(key)}" for name, key in found)
    findings.append(Finding(Grade.WRONG, report.place, "[report] has no member 'key'", todo))
    return report
