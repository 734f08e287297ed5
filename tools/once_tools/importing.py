"""From a project to its documents and its report."""
from __future__ import annotations

import os
from dataclasses import dataclass, field, replace
from pathlib import Path

from once_tools.coverage import uncrossed
from once_tools.documents import Json, needed, network_document, text_of, traffic_document
from once_tools.keys import KeyField
from once_tools.leads import report_destinations, report_keys
from once_tools.load import load_devices
from once_tools.meaning import meaning_of
from once_tools.merge import all_findings, merge
from once_tools.model import Device, Finding, Grade, Place, TrafficClass
from once_tools.network import Network
from once_tools.paths import cut_to_metered, declare, limit_findings
from once_tools.project import PathOptions, Project
from once_tools.rates import different_rates
from once_tools.report import Report
from once_tools.report_key import with_key
from once_tools.rest import cut_others
from once_tools.versions import Edition, classes_of, editions_of, versions_of

MOST_DEVICES = 64


@dataclass(frozen=True)
class Options:
    """Options of an import. `faithful` writes samplers and short counters too, so that `once` itself refuses them."""

    faithful: bool = False
    full: bool = False
    may_drop: bool = False


@dataclass
class Pair:
    """A network document and a traffic document, in a folder below the output ("": the output itself)."""

    folder: str
    network: Json
    traffic: Json
    classes: list[TrafficClass] = field(default_factory=list)
    key: tuple[KeyField, ...] = ()


@dataclass
class Imported:
    """The outcome of a project: no pairs if something is wrong."""

    pairs: list[Pair]
    report: Report
    devices: list[Device] = field(default_factory=list)
    network: Network | None = None

    def texts(self) -> dict[str, str]:
        """Returns the documents and the report as texts, by their names below the output."""
        found = {}
        for pair in self.pairs:
            folder = f"{pair.folder}/" if pair.folder else ""
            found[f"{folder}network.json"] = text_of(pair.network)
            found[f"{folder}traffic.json"] = text_of(pair.traffic)
        found["report.txt"] = self.report.text()
        found["report.json"] = self.report.json()
        return found


def with_options(project: Project, options: Options) -> Project:
    """Returns the project with the options of a command line."""
    paths = project.paths
    return replace(project, paths=PathOptions(paths.control, paths.may_drop or options.may_drop,
                                              paths.full or options.full))


def check_accepts(project: Project) -> list[Finding]:
    """Reports accepted devices that the project does not have."""
    names = {one.name for one in project.devices} | {one.name for one in project.collectors} | {"*"}
    return [Finding(Grade.WRONG, one.place, f"there is no device '{one.device}'", "name a device of the project, or \"*\"")
            for one in project.accept if one.device not in names]


def too_many(network: Network, classes: list[TrafficClass], place: Place) -> list[Finding]:
    """Reports devices that are more than a document of `once` may hold."""
    count = len(needed(network, classes))
    return [] if count <= MOST_DEVICES else [Finding(
        Grade.WRONG, place, f"{count} devices meter, collect or are on paths with meters, and a document holds {MOST_DEVICES}",
        "take devices out of the project whose packets are no part of this report")]


def pairs_of(network: Network, classes: list[TrafficClass], editions: list[Edition], options: Options,
             findings: list[Finding], project: Project) -> list[Pair]:
    """Returns a pair of documents for each edition that has traffic."""
    found = []
    for edition in editions:
        mine = classes_of(classes, edition.version)
        if not mine:
            findings.append(Finding(Grade.NOTE, project.report.place, f"no traffic of IPv{edition.version} is declared: "
                                    "nothing is said about its packets") if edition.version else
                            Finding(Grade.WRONG, project.report.place, "no traffic is declared", "add [[traffic]]"))
            continue
        findings += limit_findings(mine, project.report.place) + too_many(network, mine, project.report.place)
        report_keys(network, list(edition.key), {version for one in mine for version in versions_of(one)})
        found.append(Pair(edition.folder, network_document(network, list(edition.key), mine, options.faithful),
                          traffic_document(mine), mine, edition.key))
    if not found and len(editions) > 1:
        findings.append(Finding(Grade.WRONG, project.report.place, "no traffic is declared", "add [[traffic]]"))
    return found


def is_wrong(findings: list[Finding]) -> bool:
    """Returns whether a finding says that no document can be made."""
    return any(one.grade is Grade.WRONG for one in findings)


def import_project(project: Project, options: Options = Options()) -> Imported:
    """Returns the documents of a project, and its report."""
    project = with_options(project, options)
    devices, collectors, findings = load_devices(project)
    findings = project.findings + findings + check_accepts(project)
    project = replace(project, report=with_key(project.report, collectors, findings))
    editions = editions_of(project.report, findings)
    if is_wrong(findings):
        read = [one for device in [*devices, *collectors] for one in device.findings]
        return Imported([], Report(findings + read, project.accept), devices)
    network = merge(project, devices, collectors)
    declaration = declare(devices, project)
    if not project.paths.full:
        declaration = cut_to_metered(declaration, network.devices)
    findings += declaration.findings
    others = {one.place for one in project.traffic if one.others}
    classes = cut_others(declaration.classes, others, findings)
    report_destinations(network)
    findings += uncrossed(network, classes) + different_rates(network)
    pairs = pairs_of(network, classes, editions, options, findings, project)
    findings = all_findings(network) + findings
    if is_wrong(findings):
        return Imported([], Report(findings, project.accept), devices, network)
    meaning = meaning_of(network, [(pair.key, pair.classes) for pair in pairs], declaration.meaning, findings)
    return Imported(pairs, Report(findings, project.accept, meaning), devices, network)


def write_texts(texts: dict[str, str], folder: Path) -> None:
    """Writes texts into a folder, all of them completely or none; what is no regular file is written to as it is."""
    parts: list[tuple[Path, Path]] = []
    try:
        for name, text in texts.items():
            target = Path(os.path.realpath(folder / name))
            target.parent.mkdir(parents=True, exist_ok=True)
            if target.exists() and not target.is_file():
                target.write_text(text, encoding="utf-8", errors="backslashreplace")
                continue
            part = target.with_name(f".{target.name}.part")
            parts.append((part, target))
            part.write_text(text, encoding="utf-8", errors="backslashreplace")
        for part, target in parts:
            part.replace(target)
    finally:
        for part, _ in parts:
            part.unlink(missing_ok=True)
