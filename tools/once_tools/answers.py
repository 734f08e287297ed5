"""What the answers of `once` say about a network: the packet of a refutation, and the place of a refusal."""
from __future__ import annotations

from dataclasses import dataclass, field
from typing import Mapping

from once_tools.elements import AXES
from once_tools.json_answer import Answer


@dataclass
class Refutation:
    """A run of one packet. `choices` has for a cache (device, number) the destinations that were taken for its records, in
    the order of the exporters that choose."""

    number_of_class: int
    path: int
    packet: Mapping[str, str]
    choices: dict[tuple[int, int], list[int]] = field(default_factory=dict)


@dataclass(frozen=True)
class Refusal:
    """A refusal: its number and the place in a document."""

    number: int
    pointer: str


def refutation_of(text: str) -> Refutation | None:
    """Returns the refutation that a text is, None if it is none."""
    lines = text.splitlines()
    if len(lines) < 2 or not lines[0].startswith("once-refutation "):
        return None
    words = lines[1].split(" ")
    if words[0] != "packet" or len(words) not in (10, 13) or not all(word.isdigit() for word in words[1:3]):
        return None
    packet = dict(zip(AXES, words[3:12])) if len(words) == 13 else {**dict(zip(AXES, words[3:9])), "ipVersion": "4"}
    found = Refutation(int(words[1]), int(words[2]), packet)
    for line in lines[2:]:
        parts = line.split(" ")
        numbers = [int(part) for part in parts[2:] if part.isdigit()]
        if parts[:2] == ["expire", "cache"] and len(numbers) >= 3:
            found.choices[(numbers[0], numbers[1])] = numbers[3:]
    return found


def refusal_of(text: str) -> Refusal | None:
    """Returns the refusal that a text is, None if it is none."""
    words = text.split()
    if len(words) >= 2 and words[0] == "refused" and words[1].isdigit():
        return Refusal(int(words[1]), words[2] if len(words) > 2 else "")
    return None


def fault_in(answer: Answer) -> Refutation | Refusal | None:
    """Returns the refutation or the refusal that an answer is, None if it is neither."""
    if answer.answer == "refused" and answer.number is not None:
        return Refusal(answer.number, answer.place.text)
    return refutation_of(answer.output) if answer.answer == "refutation" else None


def is_certificate(text: str) -> bool:
    """Returns whether a text is a certificate."""
    return text.startswith("once-certificate ")
