"""Totals: packets and octets by key, as programs print them, and how two of them differ."""
from __future__ import annotations

import re
from dataclasses import dataclass, field
from typing import Iterable

Totals = dict[str, tuple[int, int]]
LINE = re.compile(r"(\S.*) packets (\d+) octets (\d+)$")


def add(totals: Totals, key: str, packets: int, octets: int) -> None:
    """Adds counts under a key; addresses of IPv6 are spelled as `once` prints them."""
    key = spelled(key)
    before = totals.get(key, (0, 0))
    totals[key] = (before[0] + packets, before[1] + octets)


def spelled(key: str) -> str:
    """Returns a key with an address of IPv6 as eight groups without leading zeros, which is the form of `once`."""
    if ":" not in key:
        return key
    address, slash, length = key.partition("/")
    left, gap, right = address.partition("::")
    first = left.split(":") if left else []
    last = right.split(":") if right else []
    groups = [*first, *["0"] * (8 - len(first) - len(last) if gap else 0), *last]
    return ":".join(f"{int(group, 16):x}" for group in groups) + slash + length


def joined(tables: Iterable[Totals]) -> Totals:
    """Returns the sum of several totals."""
    found: Totals = {}
    for table in tables:
        for key, (packets, octets) in table.items():
            add(found, key, packets, octets)
    return found


def whole(totals: Totals) -> tuple[int, int]:
    """Returns the sum over all keys."""
    return sum(one[0] for one in totals.values()), sum(one[1] for one in totals.values())


def of_keys(totals: Totals, keys: Iterable[str]) -> Totals:
    """Returns the part of totals under some keys."""
    wanted = set(keys)
    return {key: value for key, value in totals.items() if key in wanted}


@dataclass
class Answer:
    """What `once run` or `once collect` prints: totals with their notes, or a refusal."""

    totals: Totals = field(default_factory=dict)
    notes: dict[str, int] = field(default_factory=dict)
    refusal: str = ""


def read_answer(text: str, status: int) -> Answer:
    """Returns the answer that a text of `once run` or `once collect` is; raises `ValueError` if it is none."""
    if status:
        return Answer(refusal=text.strip() or f"status {status}")
    found = Answer()
    keys = None
    for line in text.splitlines():
        match, words = LINE.match(line), line.split()
        if match:
            add(found.totals, match[1], int(match[2]), int(match[3]))
        elif words[:1] == ["keys"] and len(words) == 2:
            keys = int(words[1])
        elif words[:2] == ["skipped", "other"] and len(words) == 5:
            found.notes |= {"skipped other": int(words[2]), "malformed": int(words[4])}
        elif len(words) == 2 and words[1].isdigit():
            found.notes[words[0]] = int(words[1])
        else:
            raise ValueError(f"'{line}' is no line of totals")
    if keys != len(found.totals):
        raise ValueError(f"the totals have {len(found.totals)} keys, and their first line says {keys}")
    return found


@dataclass(frozen=True)
class Difference:
    """A key with two different counts; one that is missing counts as 0."""

    key: str
    found: tuple[int, int]
    wanted: tuple[int, int]

    def __str__(self) -> str:
        return f"{self.key} has {self.found[0]} / {self.found[1]}, and {self.wanted[0]} / {self.wanted[1]} was expected"


def differences(found: Totals, wanted: Totals) -> list[Difference]:
    """Returns the keys under which totals are not those that are wanted."""
    keys = sorted({*found, *wanted})
    return [Difference(key, found.get(key, (0, 0)), wanted.get(key, (0, 0))) for key in keys
            if found.get(key, (0, 0)) != wanted.get(key, (0, 0))]


def is_within(found: Totals, most: Totals) -> bool:
    """Returns whether no key has more than it may."""
    return all(key in most and value[0] <= most[key][0] and value[1] <= most[key][1] for key, value in found.items())


def times(totals: Totals, factor: int) -> Totals:
    """Returns totals multiplied by a factor."""
    return {key: (packets * factor, octets * factor) for key, (packets, octets) in totals.items()}


def less(totals: Totals, other: Totals) -> Totals:
    """Returns totals without those of another; keys of which nothing is left are gone."""
    found = {key: (value[0] - other.get(key, (0, 0))[0], value[1] - other.get(key, (0, 0))[1])
             for key, value in totals.items()}
    return {key: value for key, value in found.items() if value != (0, 0)}
