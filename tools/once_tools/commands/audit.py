"""`once-import audit PROJECT`: imports a project, has `once` audit it, and names the lines that an answer is about."""
from __future__ import annotations

import argparse
import tempfile
from dataclasses import dataclass, replace
from pathlib import Path
from typing import Sequence

from once_tools.answers import fault_in
from once_tools.blame import blame
from once_tools.commands.options import Subparsers, add_import_options, options_of, print_report
from once_tools.documents import text_of
from once_tools.ending import OUT_OF_MEMORY
from once_tools.importing import Options, Pair, import_project, write_texts
from once_tools.json_answer import Answer, NoAnswer, ask_once
from once_tools.model import Finding
from once_tools.once_program import find_once
from once_tools.project import Project, read_project
from once_tools.report import Report, sentence
from once_tools.since import compared, states_before

NAME = "audit"
NOT_ALL = 7
FAILED = 5
# Of the statuses of several pairs of documents, the first of these is the answer.
WORST = [2, 4, FAILED, 6, 1, 3]
# The file that each answer is written into, the command that judges it, and what that has to answer.
JUDGES = {"certificate": ("certificate.txt", "check", "yes"), "refutation": ("refutation.txt", "confirm", "refuted")}
# Documents with these statuses have classes that can be judged.
JUDGED = (0, 1, 3)


def add_parser(subparsers: Subparsers) -> None:
    """Adds the command."""
    parser = subparsers.add_parser(
        NAME, help="import a project, audit it by `once`, and name the lines that the answer is about",
        epilog="Exit statuses are those of `once`: 0 a certificate, 1 a refutation, 2 refused or no document, 3 unknown, 4 out "
               "of memory, 5 a file or program failed, 6 wrong arguments; and 7 a certificate, but of documents into which "
               "not everything was carried over.")
    add_import_options(parser)
    parser.add_argument("--once", metavar="PROGRAM", help="the program `once` (found on the PATH otherwise)")
    parser.add_argument("--since", metavar="OLD", type=Path,
                        help="the folder that an earlier audit wrote: say which classes are newly right or wrong, or counted elsewhere")
    parser.set_defaults(run=run)


@dataclass(frozen=True)
class Audited:
    """The exit status for a pair of documents and the answer of `once`; `failure` says why there is no certificate or refutation."""

    status: int
    answer: Answer | None = None
    failure: str = ""


def audited(program: str, folder: Path) -> Audited:
    """Returns the answer about the documents of a folder, after it was written there and judged."""
    documents = (folder / "network.json", folder / "traffic.json")
    lint = ask_once(program, "lint", *documents)
    if lint.status:
        return Audited(lint.status, lint, lint.output.strip())
    audit = ask_once(program, "audit", *documents)
    if audit.answer not in JUDGES:
        return Audited(audit.status, audit, audit.output.strip())
    name, command, wanted = JUDGES[audit.answer]
    (folder / name).write_text(audit.output, encoding="utf-8")
    judged = ask_once(program, command, *documents, folder / name)
    if judged.answer != wanted:
        return Audited(FAILED, failure=f"`once {command}` does not agree with `once audit`:\n{judged.output.strip()}")
    return Audited(audit.status, audit)


def summary(pair: Pair, audit: Audited, report: Report) -> str:
    """Returns in a line what an answer says."""
    version = f" of {pair.folder.replace('ipv', 'IPv')}" if pair.folder else ""
    if audit.failure:
        return f"no answer{version}: {audit.failure}"
    if audit.status == 1:
        return f"refutation{version}, confirmed: a packet of the declared traffic is not counted exactly once"
    if report.status:
        return f"certificate{version}, checked, but of documents that differ from the devices: see the lines 'not carried over'"
    except_for = ", apart from what is accepted" if any(report.accepted(one) for one in report.findings) else ""
    return f"certificate{version}, checked: each packet of the declared traffic is counted exactly once{except_for}"


def blamed_in_full(program: str, project: Project, options: Options, folder: str) -> list[Finding]:
    """Returns what a refutation is about, of documents that keep the crossings that nothing meters; nothing if there is no
    refutation of those."""
    pairs = [one for one in import_project(project, replace(options, full=True)).pairs if one.folder == folder]
    if not pairs:
        return []
    with tempfile.TemporaryDirectory() as made:
        write_texts({"network.json": text_of(pairs[0].network), "traffic.json": text_of(pairs[0].traffic)}, Path(made))
        answer = ask_once(program, "audit", Path(made) / "network.json", Path(made) / "traffic.json")
    return blame(pairs[0].network, pairs[0].traffic, fault_in(answer)) if answer.answer == "refutation" else []


def forget(out: Path) -> None:
    """Takes out the answers of an earlier audit, also those of a version of IP that is not declared any more."""
    for folder in ("", "ipv4", "ipv6"):
        for name, _, _ in JUDGES.values():
            (out / folder / name).unlink(missing_ok=True)


def audit_pair(program: str, pair: Pair, folder: Path, report: Report) -> tuple[Audited, str]:
    """Returns the answer about a pair of documents that was written into a folder, and what it says in a line."""
    try:
        found = audited(program, folder)
    except NoAnswer as why:
        found = Audited(OUT_OF_MEMORY if why.status == OUT_OF_MEMORY else FAILED, failure=sentence(why.finding))
    return found, summary(pair, found, report)


def meaning_of_certificates(meaning: Sequence[str], statuses: list[int]) -> list[str]:
    """Returns what certificates mean, without the lines of pairs of documents that have none."""
    if 0 not in statuses:
        return []
    return [line for number, line in enumerate(meaning) if not 0 < number <= len(statuses) or statuses[number - 1] == 0] + [""]


def run(arguments: argparse.Namespace) -> int:
    """Returns the exit status of `once`, or 7."""
    program, options = find_once(arguments.once), options_of(arguments)
    project = read_project(arguments.project)
    imported = import_project(project, options)
    if not imported.pairs:
        print_report(imported.report, arguments.format, arguments.project.parent)
        return imported.report.status
    folders = [pair.folder for pair in imported.pairs]
    before = states_before(program, arguments.since, folders) if arguments.since else None
    with tempfile.TemporaryDirectory() as made:
        out = arguments.out or Path(made)
        write_texts(imported.texts(), out)
        forget(out)
        audits = [(pair, *audit_pair(program, pair, out / pair.folder, imported.report)) for pair in imported.pairs]
        since = [line for pair, audit, _ in audits if before is not None and audit.status in JUDGED
                 for line in compared(before, program, out, pair.folder)]
    blamed: list[Finding] = []
    for pair, audit, _ in audits:
        found = blamed_in_full(program, project, options, pair.folder) if audit.status == 1 and not options.full else []
        blamed += found or (blame(pair.network, pair.traffic, fault_in(audit.answer)) if audit.answer else [])
    statuses = [audit.status for _, audit, _ in audits]
    meaning = meaning_of_certificates(imported.report.meaning, statuses)
    report = Report([*imported.report.findings, *blamed], imported.report.accepts, [*meaning, *(says for _, _, says in audits), *since])
    print_report(report, arguments.format, arguments.project.parent)
    worst = next((one for one in WORST if one in statuses), 0)
    return worst or (NOT_ALL if imported.report.status == 1 else 0)
