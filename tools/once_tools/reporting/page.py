"""Writes a report as one page of HTML."""
from __future__ import annotations

import hashlib
import os
import shlex
import time
from dataclasses import dataclass, field
from pathlib import Path
from typing import TYPE_CHECKING

from once_tools.json_answer import Answer, Total, Totals
from once_tools.keys import spelled
from once_tools.model import Finding, Place, Unusable
from once_tools.network_view import Json, key_fields, table
from once_tools.report import printable, sentence, where
from once_tools.reporting import premises
from once_tools.reporting.answer import Status, Story
from once_tools.reporting.classes import ClassRow
from once_tools.reporting.imported import ImportReport

if TYPE_CHECKING:
    from jinja2 import Environment

LONGEST_ANSWER = 100_000
# Each status with a sign, so that it does not depend on color.
SIGNS = {Status.ONCE: "✓", Status.WRONG: "✗", Status.UNDECIDED: "?", Status.REFUSED: "!", Status.NOT_ACCEPTED: "!"}


@dataclass(frozen=True)
class File:
    """A file that the report is about, with the digest of what it has."""

    role: str
    name: str
    digest: str
    octets: int


@dataclass(frozen=True)
class TotalRow:
    """A key of the report with what the collector holds and should hold; None if it has no such key."""

    key: str
    held: Total | None
    due: Total | None

    @property
    def is_right(self) -> bool:
        """Returns whether both are the same."""
        return self.held == self.due


@dataclass(frozen=True)
class Drawing:
    """A picture, or why there is none."""

    markup: str = ""
    width: int = 0
    reason: str = ""


@dataclass(frozen=True)
class Cause:
    """A line of a configuration that an answer is about."""

    where: str
    text: str
    says: str


@dataclass
class Page:
    """What a page says."""

    title: str
    status: Status
    version: str
    files: list[File]
    made: str
    key: str = ""
    collector: str = ""
    story: Story | None = None
    fault: Answer | None = None
    fault_at: str = ""
    notes: tuple[str, ...] = ()
    classes: list[ClassRow] = field(default_factory=list)
    refuted: tuple[int, int] | None = None
    totals: list[TotalRow] = field(default_factory=list)
    causes: list[Cause] = field(default_factory=list)
    network: Drawing | None = None
    overview: Drawing | None = None
    run: Drawing | None = None
    imported: ImportReport | None = None
    answer: str = ""
    commands: tuple[str, ...] = ()
    mend: str = ""

    @property
    def sign(self) -> str:
        """Returns the sign of the status."""
        return SIGNS[self.status]

    @property
    def kind(self) -> str:
        """Returns what the answer is, in a word."""
        return {Status.ONCE: "certificate", Status.WRONG: "refutation"}.get(self.status, "answer")

    @property
    def is_answered(self) -> bool:
        """Returns whether there is a certificate or a refutation that holds."""
        return self.status in (Status.ONCE, Status.WRONG)

    @property
    def has_exempt(self) -> bool:
        """Returns whether some packets must not be counted."""
        return any(one.is_exempt for one in self.classes)

    @property
    def refuted_class(self) -> ClassRow | None:
        """Returns the class that a refutation is about."""
        return next((one for one in self.classes if self.refuted and one.number == self.refuted[0]), None)


def digest(role: str, path: Path, name: str = "") -> File:
    """Returns the digest of a file."""
    octets = path.read_bytes()
    return File(role, printable(name or str(path)), hashlib.sha256(octets).hexdigest(), len(octets))


def total_rows(held: Totals, due: Totals) -> list[TotalRow]:
    """Returns the totals of both by key, in the order in which they are printed."""
    keys = dict.fromkeys(one.key for one in (*held.rows, *due.rows))
    return [TotalRow(key, *(next((one for one in totals.rows if one.key == key), None) for totals in (held, due))) for key in keys]


def totals_words(totals: Totals) -> str:
    """Returns totals in a line."""
    said = [f"{one.key or 'all'}: packets {one.packets}, octets {one.octets}" for one in totals.rows]
    said += [f"records without the report's key: {totals.unassigned}"] if totals.unassigned else []
    return "; ".join(said) or "nothing"


def packet_words(story: Story, number: int, name: str, path: int) -> str:
    """Returns the fields of a refutation's packet, without its class and path."""
    return story.packet.removeprefix(f'class {number} "{name}", path {path}, ')


def causes_of(findings: list[Finding]) -> list[Cause]:
    """Returns the findings that name a line of a configuration."""
    return [Cause(where(one.place), printable(one.place.text), sentence(one)) for one in findings if one.place.file]


def report_key(network: Json) -> tuple[str, str]:
    """Returns the collector whose totals are asked for, and the report's key, in words."""
    report = table(network.get("report"))
    return f"collecting process \"{report.get('collectingProcess', '')}\" of {report.get('device', '')}", spelled(key_fields(report.get("key")))


def documents_of(network: Path, traffic: Path) -> str:
    """Returns the names of the documents, as words of a command."""
    return f"{shlex.quote(printable(str(network)))} {shlex.quote(printable(str(traffic)))}"


def commands_of(network: Path, traffic: Path, answer: Path | None, status: Status) -> tuple[str, ...]:
    """Returns the commands that come to the answer again, and have it checked."""
    documents = documents_of(network, traffic)
    if status not in (Status.ONCE, Status.WRONG):
        return (f"once lint --explain {documents}", f"once audit --explain {documents}")
    name, command = ("certificate.txt", "check") if status is Status.ONCE else ("refutation.txt", "confirm")
    file = shlex.quote(printable(str(answer))) if answer else name
    found = () if answer else (f"once audit {documents} > {file}",)
    return (*found, f"sha256sum {documents} {file}", f"once {command} {documents} {file}")


def now() -> str:
    """Returns the time, or that of SOURCE_DATE_EPOCH, in words."""
    given = os.environ.get("SOURCE_DATE_EPOCH", "")
    seconds = int(given) if given.isdigit() and len(given) < 12 else time.time()
    return time.strftime("%Y-%m-%d %H:%M UTC", time.gmtime(seconds))


def shown(value: object) -> object:
    """Returns what a template is given; control characters and those that turn the direction of a text are escaped, apart from ends of lines."""
    return "\n".join(map(printable, value.split("\n"))) if type(value) is str else value


def templates() -> Environment:
    """Returns the templates; raises `Unusable` without Jinja2."""
    try:
        from jinja2 import Environment, FileSystemLoader, StrictUndefined
    except ImportError as error:
        raise Unusable(Place(""), "once-report needs Jinja2", "install Debian's package python3-jinja2") from error
    return Environment(autoescape=True, loader=FileSystemLoader(Path(__file__).parent), undefined=StrictUndefined, finalize=shown,
                       trim_blocks=True, lstrip_blocks=True)


def html_of(page: Page) -> str:
    """Returns a page as HTML."""
    found: str = templates().get_template("report.html.j2").render(
        page=page, premises=premises, Status=Status, longest=LONGEST_ANSWER, totals_words=totals_words)
    return found


def encoded(text: str) -> bytes:
    """Returns a text in UTF-8; what UTF-8 cannot have is escaped."""
    return text.encode("utf-8", "backslashreplace")
