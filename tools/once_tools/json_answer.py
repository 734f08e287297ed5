"""Answers of `once`, read from the JSON object that it prints with `--format json`."""
from __future__ import annotations

import json
from dataclasses import dataclass, field, replace
from pathlib import Path
from typing import Mapping

from once_tools.elements import AXES, axis_of
from once_tools.ending import WRONG_ARGUMENTS
from once_tools.model import Failed, Place, Unusable
from once_tools.once_program import Run, run_once
from once_tools.parts.loading import Value

FORMAT, OPTION = "once-answer/1", ("--format", "json")
NEEDED = "use once 1.0.0 or later, as it is installed beside this program"
NAMED = "name the program `once` by --once PROGRAM"
NOWHERE = Place("")
# How much of what is no answer is repeated.
LONGEST = 200


@dataclass(frozen=True)
class Spot:
    """The place of a refusal: the number of a `line` from 1 or of an `octet` from 0, or the text of a `pointer` (RFC 6901) or `text`."""

    kind: str = ""
    number: int = 0
    text: str = ""


@dataclass(frozen=True)
class Reason:
    """What the number of a refusal means in general."""

    wrong: str = ""
    usually: str = ""
    todo: str = ""
    see: str = ""


@dataclass(frozen=True)
class Total:
    """The packets and octets under a key of the report, which is spelled as `once` prints it."""

    key: str
    packets: int
    octets: int


@dataclass(frozen=True)
class Totals:
    """The totals by key, and how many records lack the report's key."""

    rows: tuple[Total, ...] = ()
    unassigned: int = 0


@dataclass(frozen=True)
class Answer:
    """An answer: its word, as `certificate` or `refused`, its exit status, what the command prints without the option, and what explains it.
    `files` has the names of the command's files by their roles; `plain` has what a refuted collector should hold."""

    command: str
    answer: str
    status: int
    output: str
    number: int | None = None
    place: Spot = Spot()
    files: Mapping[str, str] = field(default_factory=dict)
    explanation: tuple[str, ...] = ()
    notes: tuple[str, ...] = ()
    reason: Reason = Reason()
    totals: Totals = Totals()
    plain: Totals = Totals()

    @property
    def first_line(self) -> str:
        """Returns the first line that the command prints, as `refused 107 /devices/0`."""
        return self.output.partition("\n")[0]

    @property
    def file(self) -> str:
        """Returns the name of the file that the explanation begins with, an empty text if it begins with none."""
        text = "".join(f"{one}\n" for one in self.explanation)
        return max((name for name in self.files.values() if text.startswith(f"file: {name}\n")), key=len, default="")

    @property
    def details(self) -> tuple[str, ...]:
        """Returns the explanation without the name of the file, which may have several lines, and the notes."""
        named = self.file.count("\n") + 1 if self.file else 0
        return (*self.explanation[named:], *self.notes)

    def said(self, label: str) -> str:
        """Returns the sentence of the explanation that follows a label, as `verdict: `; an empty text if none does."""
        return next((one.removeprefix(label) for one in self.explanation if one.startswith(label)), "")


class NoAnswer(Failed):
    """The program printed no answer; `status` is its exit status."""

    def __init__(self, place: Place, says: str, todo: str, status: int) -> None:
        super().__init__(place, says, todo)
        self.status = status


def present(entry: Value, name: str) -> Value | None:
    """Returns a member of an object, None if it is missing or null."""
    found = entry.optional(name)
    return None if found is None or found.value is None else found


def spot_in(entry: Value) -> Spot:
    """Returns the place of a refusal, one without a kind if there is none."""
    found = present(entry, "place")
    if found is None:
        return Spot()
    kind = found.text_at("kind")
    return Spot(kind, found.number_at(kind)) if kind in ("line", "octet") else Spot(kind, text=found.text_at(kind))


def reason_in(entry: Value) -> Reason:
    """Returns what the number of a refusal means, empty texts without a number."""
    found = present(entry, "reason")
    return Reason(*map(found.text_at, ("wrong", "usually", "whatToDo", "see"))) if found else Reason()


def key_words(key: Value) -> str:
    """Returns a key as `once` prints it: its values in the order of the axes, or `all` if it has none."""
    members = {axis_of(element): str(one.value) for element, one in key.each()}
    return " ".join(members[axis] for axis in AXES if axis in members) or "all"


def totals_in(entry: Value, name: str, *answers: str) -> Totals:
    """Returns the totals that a member of these answers is, none for other answers."""
    if entry.text_at("answer") not in answers:
        return Totals()
    found = entry.member(name)
    rows = (Total(key_words(one.member("key")), one.number_at("packets"), one.number_at("octets")) for one in found.listed("keys"))
    return Totals(tuple(rows), found.number_at("unassigned"))


def answer_in(text: str) -> Answer:
    """Returns the answer that a text is; raises `ValueError` if it is not JSON, and `Unusable` if it is another value."""
    entry = Value(json.loads(text), "the object")
    if entry.text_at("format") != FORMAT:
        raise entry.wrong(f"has the format '{entry.text_at('format')}', and '{FORMAT}' is read", NEEDED)
    word, status = entry.text_at("answer"), entry.number_at("status")
    number = entry.number_at("number") if present(entry, "number") else None
    if entry.optional("output") is None:  # there was not enough memory for the other members
        return Answer("", word, status, f"{word} {number}\n", number)
    return Answer(entry.text_at("command"), word, status, entry.text_at("output"), number, spot_in(entry),
                  {role: name.text() for role, name in entry.member("files").each()}, entry.texts("explanation"), entry.texts("notes"),
                  reason_in(entry), totals_in(entry, "totals", "refuted", "totals"), totals_in(entry, "plain", "refuted"))


def answer_of(command: str, run: Run, place: Place = NOWHERE) -> Answer:
    """Returns the answer that a run of a command printed. Raises `NoAnswer`, which says what it printed instead, or `Failed` if the program does
    not have the option."""
    if run.status == WRONG_ARGUMENTS and f"'{OPTION[0]}'" in run.output + run.errors:
        raise Failed(place, f"`once` does not have the option {' '.join(OPTION)}", NEEDED)
    try:
        found = answer_in(run.output)
    except Unusable as error:
        says = f"`once {command}` answered in another form: {error.finding.place.file} {error.finding.says}"
        raise NoAnswer(place, says, error.finding.todo, run.status) from error
    except (ValueError, RecursionError) as error:
        said = (run.output[:LONGEST] + run.errors).strip() or f"nothing, with status {run.status}"
        raise NoAnswer(place, f"`once {command}` answered: {said}", NAMED, run.status) from error
    if found.status != run.status:
        raise NoAnswer(place, f"`once {command}` ended with status {run.status}, and its answer has {found.status}", NAMED, run.status)
    return found if found.command else replace(found, command=command)


def ask_once(program: str, command: str, *arguments: str | Path, place: Place = NOWHERE) -> Answer:
    """Returns what a command of `once` answers; raises the exceptions of `answer_of`."""
    return answer_of(command, run_once(program, command, *OPTION, *arguments), place)


def unexpected(answer: Answer, place: Place = NOWHERE) -> Failed:
    """Returns the failure that an answer is where another one is due."""
    said = "; ".join((answer.first_line, *answer.explanation))
    return Failed(place, f"`once {answer.command}` answered: {said}", f"see `once explain {answer.number}`" if answer.number else NAMED)
