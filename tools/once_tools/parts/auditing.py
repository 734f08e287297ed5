"""Has `once` audit each part, check each certificate and confirm each refutation."""
from __future__ import annotations

import json
from concurrent.futures import ThreadPoolExecutor
from dataclasses import dataclass
from enum import Enum
from typing import Iterable, Iterator, Sequence

from once_tools.json_answer import Answer, NoAnswer, ask_once, unexpected
from once_tools.model import Failed, Place
from once_tools.parts.manifest import PartEntry
from once_tools.report import printable


class Outcome(Enum):
    """What an audit of a part came to; the values are the exit statuses of `once audit`."""

    YES = 0
    REFUTED = 1
    REFUSED = 2
    UNDECIDED = 3


# The exit statuses of `once check` for a yes, a no and a refusal.
CHECKED = (0, 1, 2)
OUTCOMES = {"certificate": Outcome.YES, "refutation": Outcome.REFUTED, "refused": Outcome.REFUSED, "unknown": Outcome.UNDECIDED}


@dataclass(frozen=True)
class Audited:
    """The answer about a part, with the sentences that explain it."""

    part: PartEntry
    outcome: Outcome
    says: tuple[str, ...] = ()


def place_of(part: PartEntry) -> Place:
    """Returns the place of what is said about a part."""
    return Place(f"part {part.name}")


def audit(program: str, part: PartEntry) -> Answer:
    """Returns what `once audit` answers. Writes a certificate or refutation beside the part's documents, and removes that of an earlier audit."""
    for path in (part.certificate, part.refutation):
        path.unlink(missing_ok=True)
    found = ask_once(program, "audit", part.network, part.traffic, place=place_of(part))
    if found.answer in ("certificate", "refutation"):
        (part.certificate if found.answer == "certificate" else part.refutation).write_text(found.output, encoding="utf-8")
    return found


def quoted(names: Sequence[str], most: int = 8) -> str:
    """Returns names in quotation marks, of many the first ones and how many more there are."""
    more = f" and {len(names) - most} more (see manifest.json)" if len(names) > most else ""
    return ", ".join(json.dumps(one, ensure_ascii=False) for one in names[:most]) + more


def refuted(program: str, part: PartEntry) -> tuple[str, ...]:
    """Returns what a refutation says that `once confirm` confirms, with the classes that the part has."""
    found = ask_once(program, "confirm", part.network, part.traffic, part.refutation, place=place_of(part))
    if found.answer != "refuted":
        raise unexpected(found, place_of(part))
    classes = f"the part's classes, of which the first that is counted wrongly is refuted: {quoted(part.classes)}"
    return found.said("verdict: "), f"what to do: {found.said('what to do: ')}", classes


def refused(part: PartEntry, answer: Answer) -> tuple[str, ...]:
    """Returns what a refusal says, with the name of the device or class that it is about."""
    words = answer.place.text.split("/")
    numbered = len(words) > 2 and words[2].isdigit()
    names = {"devices": part.devices, "classes": part.classes}.get(words[1], ()) if numbered else ()
    number = int(words[2]) if numbered else 0
    about = f" ({words[1]} {quoted([names[number]])})" if number < len(names) else ""
    reasons = (("wrong", answer.reason.wrong), ("what to do", answer.reason.todo))
    return (answer.first_line + about, *(f"{label}: {text}" for label, text in reasons if text))


def audited(program: str, part: PartEntry) -> Audited:
    """Returns what `once` answers about a part. Raises `Failed` if it does not accept its own answer."""
    found = audit(program, part)
    outcome = OUTCOMES.get(found.answer)
    if outcome is None:
        raise unexpected(found, place_of(part))
    if outcome is Outcome.YES:
        judged = checked(program, part)
        if judged:
            raise Failed(place_of(part), f"`once check` does not accept the certificate of `once audit`: {judged}", "report this fault of `once`")
        return Audited(part, outcome)
    if outcome is Outcome.REFUTED:
        return Audited(part, outcome, refuted(program, part))
    return Audited(part, outcome, refused(part, found) if outcome is Outcome.REFUSED else (found.output.strip(),))


def checked(program: str, part: PartEntry) -> str:
    """Returns why `once check` does not say yes of a part's certificate; an empty text if it does."""
    if not part.certificate.exists():
        return "it is refuted: see refutation.txt" if part.refutation.exists() else "there is no certificate: run `once-part audit`"
    try:
        found = ask_once(program, "check", part.network, part.traffic, part.certificate, place=place_of(part))
    except NoAnswer as why:
        if why.status in CHECKED:
            return why.finding.says
        raise
    if found.answer not in ("yes", "no", "refused"):
        raise unexpected(found, place_of(part))
    return "" if found.answer == "yes" else f"`once check` answers {printable(found.output.strip())}"


def audit_all(program: str, parts: Iterable[PartEntry], jobs: int) -> Iterator[Audited]:
    """Yields the answers about parts, in their order."""
    with ThreadPoolExecutor(jobs) as pool:
        yield from pool.map(lambda one: audited(program, one), parts)


def check_all(program: str, parts: Iterable[PartEntry], jobs: int) -> Iterator[str]:
    """Yields for each part why its certificate is not accepted, an empty text if it is."""
    with ThreadPoolExecutor(jobs) as pool:
        yield from pool.map(lambda one: checked(program, one), parts)


def status_of(found: Iterable[Outcome]) -> Outcome:
    """Returns the answer for all parts: refuted if one is, else that of the first part without a certificate."""
    outcomes = list(found)
    if Outcome.REFUTED in outcomes:
        return Outcome.REFUTED
    return next((one for one in outcomes if one is not Outcome.YES), Outcome.YES)
