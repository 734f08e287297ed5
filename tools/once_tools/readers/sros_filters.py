"""Filters of Nokia SR OS (ip-filter, ipv6-filter) as terms: which packets cflowd samples, or leaves out.

Entries are tried in the order of their numbers, and the first that matches decides; an entry without an action is not
active. Conditions are translated to those of Junos' filters, which `junos_terms` turns into regions.
"""
from __future__ import annotations

from dataclasses import dataclass, field

from once_tools import boxes
from once_tools.model import Place, Selection
from once_tools.readers.filters import Term, sampled, selections
from once_tools.readers.junos_terms import TermText, UnreadCondition, region_of
from once_tools.readers.statements import match

KINDS = {"ip-filter": 4, "ipv6-filter": 6}
LISTS = ("ip-prefix-list", "ipv6-prefix-list")
HARMLESS_FILTER = ("default-action", "description", "scope", "filter-name", "filter-id", "exit", "no")
HARMLESS_ENTRY = ("description", "log", "exit", "sticky-dest", "collect-stats", "pbr-down-action-override")
ADDRESSES = {"src-ip": "source", "dst-ip": "destination"}
PORTS = {"src-port": "source-port", "dst-port": "destination-port", "port": "port"}
PASSING, DROPPING = ("forward", "accept", "ignore-match"), ("drop", "discard", "reject")
DROPPED = "whether a packet that is dropped is sampled is not known"


@dataclass
class Entry:
    """An entry of a filter. `unread` says which part of it is not known here."""

    number: int
    place: Place
    text: TermText
    action: str = ""
    samples: Place | None = None
    disables: Place | None = None
    unread: tuple[Place, str] | None = None


@dataclass
class Filter:
    """A filter: its version of IP, its name, and its entries by number."""

    version: int
    name: str
    entries: dict[int, Entry] = field(default_factory=dict)
    unread: tuple[Place, str] | None = None

    @property
    def title(self) -> str:
        return f"{'ip' if self.version == 4 else 'ipv6'}-filter {self.name}"

    def marked(self, by_filter: bool) -> list[Place]:
        """Returns the lines by which entries sample packets, or keep them from being sampled."""
        found = [one.samples if by_filter else one.disables for one in self.entries.values()]
        return [place for place in found if place]


@dataclass
class Filters:
    """The filters of a router, and the lists of prefixes that they name."""

    found: dict[tuple[int, str], Filter] = field(default_factory=dict)
    lists: dict[str, list[str]] = field(default_factory=dict)

    def take(self, words: list[str], place: Place) -> None:
        """Takes a statement of a filter or of a list."""
        words = [word for word in words if word != "create"]
        entry, prefix = match(words, "filter ip-filter|ipv6-filter *"), match(words, "filter match-list * * prefix *")
        if prefix and prefix[0] in LISTS:
            self.lists.setdefault(prefix[1], []).append(prefix[2])
        elif entry:
            one = self.found.setdefault((KINDS[entry[0]], entry[1]), Filter(KINDS[entry[0]], entry[1]))
            rest = entry[2:]
            if rest[:1] == ["entry"] and len(rest) > 1 and rest[1].isdigit():
                number = int(rest[1])
                known = one.entries.setdefault(number, Entry(number, place, TermText(f"entry {number}", place)))
                self.entry(known, rest[2:], place)
            elif rest and rest[0] not in HARMLESS_FILTER:
                one.unread = one.unread or (place, f"`{' '.join(rest)}` is not known here")

    def entry(self, one: Entry, words: list[str], place: Place) -> None:
        """Takes a statement of an entry."""
        word = words[0] if words else ""
        if word in ("filter-sample", "interface-disable-sample") and words[1:] in ([], ["true"], ["false"]):
            where = place if words[1:] != ["false"] else None
            one.samples, one.disables = (where, one.disables) if word == "filter-sample" else (one.samples, where)
        elif words in (["no", "filter-sample"], ["no", "interface-disable-sample"]):
            one.samples, one.disables = (None, one.disables) if words[1] == "filter-sample" else (one.samples, None)
        elif word == "action":
            one.action = words[1] if len(words) > 1 else one.action
        elif word == "match":
            self.conditions(one, words[1:], place)
        elif words and word not in HARMLESS_ENTRY:
            one.unread = one.unread or (place, f"`{' '.join(words)}` is not known here")

    def conditions(self, one: Entry, words: list[str], place: Place) -> None:
        """Takes the conditions in a line; in the classic form a line below `match` repeats those of `match`."""
        while words:
            key, rest = words[0], [word for word in words[1:] if word not in ("address", "exit")]
            if key in ("protocol", "next-header", "dscp") and rest:
                one.text.add(one.text.conditions, [key, rest[0]], place)
                words = rest[1:]
            elif key in ADDRESSES and len(rest) > 1 and rest[0] in LISTS:
                one.text.add(one.text.conditions, [f"{ADDRESSES[key]}-prefix-list", rest[1]], place)
                words = rest[2:]
            elif key in ADDRESSES and rest:
                one.text.add(one.text.conditions, [f"{ADDRESSES[key]}-address", rest[0]], place)
                words = rest[1:]
            elif key in PORTS and len(rest) > 1 and (values := ports_of(rest)):
                one.text.add(one.text.conditions, [PORTS[key], values[0]], place)
                words = rest[values[1]:]
            elif key != "exit":
                one.unread = one.unread or (place, f"`{' '.join(words)}` is a condition that has no axis, or is not known here")
                return
            else:
                words = rest


def ports_of(words: list[str]) -> tuple[str, int] | None:
    """Returns the ports of `eq N`, `lt N`, `gt N` or `range A B`, and how many words that takes."""
    numbers = [word for word in words[1:] if word not in ("start", "end")]
    if words[0] == "range" and len(numbers) > 1 and numbers[0].isdigit() and numbers[1].isdigit():
        return f"{numbers[0]}-{numbers[1]}", 5 if "start" in words[:2] else 3
    if words[0] not in ("eq", "lt", "gt") or not numbers or not numbers[0].isdigit():
        return None
    number = int(numbers[0])
    low, high = {"eq": (number, number), "lt": (0, number - 1), "gt": (number + 1, 65535)}[words[0]]
    return (f"{low}-{high}", 2) if 0 <= low <= high <= 65535 else None


def terms_of(one: Filter, lists: dict[str, list[str]], by_filter: bool) -> list[Term]:
    """Returns the entries of a filter as terms. Those are marked to sample that have `filter-sample`, or, without `by_filter`,
    `interface-disable-sample`. Raises UnreadCondition."""
    if one.unread:
        raise UnreadCondition(*one.unread)
    found = []
    for _, entry in sorted(one.entries.items()):
        if entry.unread:
            raise UnreadCondition(*entry.unread)
        if not entry.action or entry.action == "ignore-match":
            continue
        if entry.action not in (*PASSING, *DROPPING):
            raise UnreadCondition(entry.place, f"action `{entry.action}` is not known here")
        mark = entry.samples if by_filter else entry.disables
        if by_filter and mark and entry.action in DROPPING:
            raise UnreadCondition(mark, DROPPED)
        region = region_of(entry.text, one.version, lists, [])
        found.append(Term(f"{one.title} entry {entry.number}", region, mark is not None, True, entry.place))
    return found


def selections_of(one: Filter, lists: dict[str, list[str]], by_filter: bool, cache: str, place: Place) -> list[Selection]:
    """Returns the selection processes of the packets that are sampled: those of marked entries, or, without `by_filter`, all
    others. Raises UnreadCondition and TooManyBoxes."""
    parts = sampled(terms_of(one, lists, by_filter), one.version)
    if by_filter:
        found = [each for part in parts for each in selections(part.term.name, part.region, cache, part.term.place)]
    else:
        region = boxes.difference([boxes.family(one.version)], [box for part in parts for box in part.region])
        found = selections(f"{one.title} other packets", region, cache, place)
    if len(found) > boxes.MOST_SELECTIONS:
        raise boxes.TooManyBoxes(len(found))
    return found
