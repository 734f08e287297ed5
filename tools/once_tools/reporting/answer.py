"""All that a report says of an answer of `once`."""
from __future__ import annotations

import re
from dataclasses import dataclass
from enum import Enum

from once_tools.json_answer import Answer, Totals


class Status(Enum):
    """What is known of the totals; the exit status of `once-report` follows from it."""

    ONCE = "counted exactly once"
    WRONG = "not counted exactly once"
    UNDECIDED = "undecided (601)"
    REFUSED = "documents refused"
    NOT_ACCEPTED = "answer not accepted"


@dataclass(frozen=True)
class Step:
    """A step of a run, with the sentences that follow it."""

    says: str
    notes: tuple[str, ...] = ()


@dataclass(frozen=True)
class Story:
    """A refutation in sentences, and the totals that the collector holds and should hold."""

    verdict: str
    todo: str
    packet: str
    steps: tuple[Step, ...]
    ending: str
    held: Totals
    due: Totals


VERDICT, TODO, PACKET, TOTALS = "verdict: ", "what to do: ", "the packet: ", "in the end the collector holds"
ENDING = re.compile("(?:a|no) record reaches the report")


def line_in(fault: Answer) -> int:
    """Returns the line of a text, or of a JSON text, that an answer is about; 0 if it names none."""
    if fault.place.kind == "line":
        return fault.place.number
    found = [re.match(r"line (\d+)\b", one) for one in fault.details]
    return next((int(one[1]) for one in found if one), 0)


def steps_in(sentences: list[str]) -> tuple[tuple[Step, ...], str]:
    """Returns the numbered sentences with those that follow each, and the sentence about where records arrive."""
    steps: list[Step] = []
    ending = ""
    for one in sentences:
        numbered = re.match(r"(\d+)\. (.*)", one)
        if numbered and int(numbered[1]) == len(steps) + 1:
            steps.append(Step(numbered[2]))
        elif ENDING.match(one):
            ending = one
        elif steps:
            steps[-1] = Step(steps[-1].says, (*steps[-1].notes, one))
    return tuple(steps), ending


def story_of(answer: Answer) -> Story:
    """Returns the story of a refutation that `once confirm` confirms."""
    sentences = list(answer.explanation)
    end = sentences.index(TOTALS) if TOTALS in sentences else len(sentences)
    steps, ending = steps_in([one for one in sentences[:end] if not one.startswith((VERDICT, TODO, PACKET))])
    return Story(answer.said(VERDICT), answer.said(TODO), answer.said(PACKET), steps, ending, answer.totals, answer.plain)
