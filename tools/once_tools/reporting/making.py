"""Makes the page of an answer: asks `once`, reads the documents, draws, and puts the parts together."""
from __future__ import annotations

import json
import tempfile
from dataclasses import dataclass, replace
from pathlib import Path

from once_tools.answers import Refutation, fault_in, refutation_of
from once_tools.blame import blame
from once_tools.json_answer import Answer, ask_once
from once_tools.model import Failed, Finding, Grade, Place
from once_tools.network_view import Json, entries, table
from once_tools.report import line_of, printable, where
from once_tools.reporting.answer import Status, line_in
from once_tools.reporting.asking import Asked, Question, argument, ask
from once_tools.reporting.classes import classes_in, devices_crossed
from once_tools.reporting.imported import read_report
from once_tools.reporting.overview import FEW_DEVICES, overview_of
from once_tools.reporting.page import (
    Drawing, File, Page, causes_of, commands_of, digest, documents_of, now, packet_words, report_key, total_rows)
from once_tools.reporting.picture import NoPicture, picture_of, run_in
from once_tools.reporting.pointers import line_at


@dataclass(frozen=True)
class Wanted:
    """The report that is asked for."""

    question: Question
    title: str = ""
    import_report: Path | None = None


@dataclass(frozen=True)
class Made:
    """A page, with what is printed on standard error beside it."""

    page: Page
    remarks: tuple[str, ...] = ()


def document(path: Path) -> Json:
    """Returns a document that `once` has read; an empty one if it is none for Python."""
    try:
        return table(json.loads(path.read_bytes().decode("utf-8")))
    except (ValueError, RecursionError):
        return {}


def place_of(fault: Answer, question: Question) -> Place:
    """Returns the file and line that a fault is at."""
    files = [one for one in (question.network, question.traffic, question.answer) if one is not None]
    path = next((one for one in files if argument(one) == fault.file), None)
    if path is None:
        return Place("")
    pointed = line_at(path.read_bytes().decode("utf-8", "replace"), fault.place.text) if fault.place.text.startswith("/") else 0
    return Place(str(path), pointed or line_in(fault))


def remark_of(fault: Answer, place: Place) -> Finding:
    """Returns a fault as a finding, for standard error."""
    says = "; ".join([fault.first_line, *fault.details[:1]])
    return Finding(Grade.WRONG, place, says, fault.reason.todo, number=fault.number)


def drawing_of(drawing: str, name: str, title: str) -> Drawing:
    """Returns a picture, or why there is none."""
    try:
        picture = picture_of(drawing, name, title)
    except NoPicture as why:
        return Drawing(reason=printable(str(why)))
    return Drawing(picture.markup, picture.width)


def network_title(network: Json) -> str:
    """Returns the text alternative of a network's picture."""
    names = ", ".join(str(one.get("name", "")) for one in entries(network.get("devices")))
    links = dict.fromkeys(f"{one.get('device', '')} to {one.get('toDevice', '')}" for one in entries(network.get("links")))
    return printable(f"The network of {names}; records go from {', '.join(links) or 'no device to another'}. The report is that of {report_key(network)[0]}.")


def overview_drawing(network: Json, traffic: Json, refutation: Refutation | None) -> Drawing | None:
    """Returns the overview of a network with many devices; None of one with few. Devices of a refutation's path are boxes of their own."""
    if len(entries(network.get("devices"))) <= FEW_DEVICES:
        return None
    crossed = devices_crossed(traffic)
    apart = crossed.get((refutation.number_of_class, refutation.path), set()) if refutation else set()
    made = overview_of(network, set().union(*crossed.values()), apart)
    return drawing_of(made.drawing, "overview-picture", printable(made.words))


def with_pictures(program: str, wanted: Wanted, asked: Asked, refutation: Refutation | None, page: Page, network: Json, traffic: Json) -> Page:
    """Returns the page with its pictures."""
    files = [wanted.question.network, wanted.question.traffic, *([asked.file] if asked.file else [])]
    drawn = ask_once(program, "draw", *map(argument, files))
    if drawn.answer != "graph":
        nothing = Drawing(reason=f"`once draw` answered {drawn.output.strip()}")
        return replace(page, network=nothing, run=nothing if page.story else None)
    page = replace(page, network=drawing_of(drawn.output, "network-picture", network_title(network)), overview=overview_drawing(network, traffic, refutation))
    if refutation is None:
        return page
    part = run_in(drawn.output, refutation.number_of_class, refutation.path)
    return replace(page, run=drawing_of(part, "run-picture", "The run, whose steps are in the list of this section."))


def with_answer(page: Page, asked: Asked, refutation: Refutation | None, network: Json, traffic: Json) -> Page:
    """Returns the page with what a certificate or a refutation says of the documents."""
    page = replace(page, answer=asked.text, classes=classes_in(network, traffic, asked.text if asked.status is Status.ONCE else ""))
    if refutation is None or asked.story is None:
        return page
    number, path = refutation.number_of_class, refutation.path
    name = next((one.name for one in page.classes if one.number == number), "")
    story = replace(asked.story, packet=packet_words(asked.story, number, name, path))
    return replace(page, story=story, refuted=(number, path), totals=total_rows(story.held, story.due),
                   causes=causes_of(blame(network, traffic, refutation)))


def digests_of(question: Question) -> list[File]:
    """Returns the digests of the documents."""
    return [digest("Network", question.network), digest("Traffic", question.traffic)]


def answer_files(question: Question, asked: Asked) -> list[File]:
    """Returns the digest of the certificate or refutation, also of one that is not accepted."""
    if asked.file:
        kind = "certificate" if asked.status is Status.ONCE else "refutation"
        return [digest(kind.capitalize(), asked.file, str(question.answer) if question.answer else f"{kind}.txt")]
    return [digest("Answer", question.answer)] if question.answer else []


def with_fault(page: Page, wanted: Wanted, fault: Answer, network: Json, traffic: Json) -> tuple[Page, list[str]]:
    """Returns the page with the place of a fault, and what is printed about it."""
    if page.status is Status.UNDECIDED:
        return page, [fault.first_line]
    place = place_of(fault, wanted.question)
    return replace(page, fault_at=where(place), causes=causes_of(blame(network, traffic, fault_in(fault)))), [line_of(remark_of(fault, place))]


def page_of(program: str, wanted: Wanted, asked: Asked, page: Page) -> Made:
    """Returns a page with what there is to say about an answer."""
    network, traffic = document(wanted.question.network), document(wanted.question.traffic)
    remarks: list[str] = []
    if asked.fault:
        page, remarks = with_fault(page, wanted, asked.fault, network, traffic)
    if asked.status is not Status.REFUSED:
        refutation = refutation_of(asked.text) if asked.status is Status.WRONG else None
        collector, key = report_key(network)
        page = with_answer(replace(page, collector=collector, key=key), asked, refutation, network, traffic)
        page = with_pictures(program, wanted, asked, refutation, page, network, traffic)
    missing = dict.fromkeys(one.reason for one in (page.network, page.run) if one and one.reason)
    return Made(page, (*remarks, *(f"no picture: {reason}" for reason in missing)))


def make(program: str, wanted: Wanted) -> Made:
    """Returns the report on two documents."""
    question, files = wanted.question, digests_of(wanted.question)
    imported = read_report(wanted.import_report) if wanted.import_report else None
    with tempfile.TemporaryDirectory() as folder:
        asked = ask(program, question, Path(folder))
        title = printable(wanted.title or f"Audit of {Path(*question.network.parts[-2:])}")
        page = Page(title, asked.status, asked.version, [*files, *answer_files(question, asked)], now(), notes=asked.notes, fault=asked.fault,
                    imported=imported, commands=commands_of(question.network, question.traffic, question.answer, asked.status),
                    mend=f"once-mend {documents_of(question.network, question.traffic)}")
        made = page_of(program, wanted, asked, page)
    if digests_of(question) != files:
        raise Failed(Place(str(question.network)), "the documents changed while the report was made", "run once-report again")
    return made
