"""Translation of addresses (NAT) on declared paths: which meters see a packet before it, and which after it.

A class has one region, and its packets keep their addresses in the documents. Declaring a class for each side would hide a
packet that is metered on both: each class would be counted once. So a translated packet stays in one class, with the
addresses with which it begins, and the report says at which crossings its records have others.
"""
from __future__ import annotations

from dataclasses import dataclass, field
from typing import Iterable

from once_tools.model import Crossing, Device, Direction, Finding, Grade, Place, Topic
from once_tools.paths.pieces import Piece
from once_tools.paths.topology import Topology
from once_tools.paths.ways import Path
from once_tools.readers.junos import statements_of
from once_tools.readers.statements import match
from once_tools.readers.trees import Node, Statement, Words, indented
from once_tools.source import Source

HARMLESS = ("log", "translation", "service", "settings", "create", "switchover", "stateful", "portmap")
MOST_NAMED = 4


@dataclass(frozen=True)
class Rule:
    """A rule of translation: its line, which packets it takes, and the addresses that they have outside."""

    place: Place
    inside: str
    outside: str


@dataclass
class Translation:
    """What a router translates: the interfaces on both sides, and the rules for packets that go from inside to outside."""

    device: str
    inside: set[str] = field(default_factory=set)
    outside: set[str] = field(default_factory=set)
    rules: list[Rule] = field(default_factory=list)
    is_sure: bool = True  # whether it is established that input is metered before the translation, and output after it


@dataclass
class _Ios:
    """Reads the translation of a Cisco router. `unread` says that a rule is of a form that is not read here."""

    topology: Topology
    found: Translation
    pools: dict[str, str] = field(default_factory=dict)
    lines: list[Node] = field(default_factory=list)
    unread: bool = False

    def take(self, node: Node) -> None:
        words = node.words
        if node.starts("interface") and len(words) > 1:
            self.interface("".join(words[1:]), node)
        elif words[:3] == ("ip", "nat", "pool") and len(words) > 3:
            ends = words[4:6] if len(words) > 5 and words[4][:1].isdigit() else ()
            ranges = [ends] if ends else [one.words[1:3] for one in node.children if one.starts("address")]
            self.pools[words[3]] = ", ".join("-".join(dict.fromkeys(one)) for one in ranges)
        elif words[:4] == ("ip", "nat", "inside", "source"):
            self.lines.append(node)
        elif words[:2] == ("ip", "nat") and words[2:3] and words[2] not in HARMLESS:
            self.unread = True

    def interface(self, name: str, node: Node) -> None:
        known = self.topology.interfaces.get(self.found.device, {})
        names = [name] if name in known else self.topology.same_names(self.found.device, name)
        for line in node.children:
            if line.words == ("ip", "nat", "inside"):
                self.found.inside.update(names)
            elif line.words == ("ip", "nat", "outside"):
                self.found.outside.update(names)
            elif line.starts("ip", "nat"):
                self.unread = True

    def rule(self, words: Words, place: Place) -> Rule | None:
        """Returns the rule of `ip nat inside source WORDS`, None for a form that is not read."""
        kind = words[0] if words else ""
        if kind == "static" and len(words) > 2:
            return self.static(words[1:], place)
        if kind in ("list", "route-map") and len(words) > 3 and words[2] in ("pool", "interface"):
            inside = f"packets of {'access list' if kind == 'list' else 'route map'} {words[1]}"
            outside = self.pools.get(words[3], "") or f"pool {words[3]}"
            return Rule(place, inside, outside if words[2] == "pool" else f"the address of {words[3]}")
        return None

    def static(self, words: Words, place: Place) -> Rule | None:
        if words[0] == "network" and len(words) > 3 and words[3].startswith("/"):
            return Rule(place, f"packets of {words[1]}{words[3]}", words[2] + words[3])
        if words[0] in ("tcp", "udp") and len(words) > 4:
            outside = f"the address of {words[4]}" if words[3] == "interface" else words[3]
            port = words[5] if words[3] == "interface" and len(words) > 5 else words[4]
            return Rule(place, f"packets of {words[1]}, {words[0]} port {words[2]}", f"{outside}, port {port}")
        if words[0][:1].isdigit() and words[1] == "interface" and len(words) > 2:
            return Rule(place, f"packets of {words[0]}", f"the address of {words[2]}")
        return Rule(place, f"packets of {words[0]}", words[1]) if words[0][:1].isdigit() and words[1][:1].isdigit() else None

    def read(self) -> Translation | None:
        """Returns the translation, None if some of it is of a form that is not read."""
        for node in self.lines:
            rule = self.rule(node.words[4:], node.place)
            self.unread = self.unread or rule is None
            self.found.rules += [rule] if rule else []
        is_whole = self.found.rules and self.found.inside and self.found.outside and not self.unread
        return self.found if is_whole else None


@dataclass
class _Junos:
    """Reads source translation of Junos. Rule sets lead from zones or interfaces to others."""

    found: Translation
    zones: dict[str, set[str]] = field(default_factory=dict)
    pools: dict[str, list[str]] = field(default_factory=dict)
    ends: dict[str, dict[str, list[tuple[str, str]]]] = field(default_factory=dict)
    sources: dict[tuple[str, str], list[str]] = field(default_factory=dict)
    actions: dict[tuple[str, str], tuple[str, Place]] = field(default_factory=dict)
    unread: bool = False

    def take(self, one: Statement) -> None:
        words = one.words
        zone = match(words, "security zones security-zone * interfaces *")
        pool = match(words, "security nat source pool * address *")
        end = match(words, "security nat source rule-set * from|to zone|interface *")
        rule = match(words, "security nat source rule-set * rule *")
        if zone:
            self.zones.setdefault(zone[0], set()).add(zone[1])
        elif pool:
            self.pools.setdefault(pool[0], []).append(" ".join(pool[1:]))
        elif end:
            self.ends.setdefault(end[0], {}).setdefault(end[1], []).append((end[2], end[3]))
        elif rule:
            self.rule((rule[0], rule[1]), rule[2:], one.place)
        elif words[:2] == ("security", "nat") and words[2:4] != ("source", "pool") or words[:2] == ("services", "nat"):
            self.unread = True

    def rule(self, key: tuple[str, str], words: list[str], place: Place) -> None:
        source, pool = match(words, "match source-address *"), match(words, "then source-nat pool *")
        if source:
            self.sources.setdefault(key, []).append(source[0])
        elif pool:
            self.actions[key] = (pool[0], place)
        elif words in (["then", "source-nat", "interface"], ["then", "source-nat", "off"]):
            self.actions[key] = ("" if words[-1] == "interface" else "off", place)
        elif words[:1] != ["match"] and words[:1] != ["description"]:
            self.unread = True

    def interfaces(self, rule_set: str, side: str) -> set[str]:
        found: set[str] = set()
        for kind, name in self.ends.get(rule_set, {}).get(side, []):
            found |= {name} if kind == "interface" else self.zones.get(name, set())
        return found

    def read(self) -> Translation | None:
        """Returns the translation, None if some of it is of a form that is not read."""
        for key, (pool, place) in self.actions.items():
            if pool == "off":
                continue
            self.found.inside |= self.interfaces(key[0], "from")
            self.found.outside |= self.interfaces(key[0], "to")
            outside = ", ".join(self.pools.get(pool, [f"pool {pool}"])) if pool else "the address of the interface"
            self.found.rules.append(Rule(place, f"packets of {', '.join(self.sources.get(key, ['all addresses']))}", outside))
        is_whole = self.found.rules and self.found.inside and self.found.outside and not self.unread
        return self.found if is_whole else None


def translation_of(device: Device, sources: Iterable[Source], topology: Topology) -> Translation | None:
    """Returns the translation of a device whose configuration gives its sides and its rules, None otherwise."""
    if device.kind == "junos":
        junos = _Junos(Translation(device.name, is_sure=False))
        for one in (one for source in sources for one in statements_of(source) if not one.inactive):
            junos.take(one)
        return junos.read()
    if device.kind != "cisco-ios":
        return None
    reading = _Ios(topology, Translation(device.name))
    for source in sources:
        for node in indented(source).children:
            reading.take(node)
    return reading.read()


@dataclass
class _Sides:
    """The metered crossings of a traffic before and after a translation."""

    outward: bool
    before: dict[Crossing, None] = field(default_factory=dict)
    after: dict[Crossing, None] = field(default_factory=dict)


def _split(path: Path, one: Translation) -> tuple[bool, int] | None:
    """Returns whether a path leads outward through a translation, and how many of its crossings come before that."""
    for at, (a, b) in enumerate(zip(path, path[1:]), 1):
        if a.device == b.device == one.device and a.direction is Direction.INGRESS and b.direction is Direction.EGRESS:
            if a.interface in one.inside and b.interface in one.outside:
                return True, at
            if a.interface in one.outside and b.interface in one.inside:
                return False, at
    return None


def _sides(one: Translation, pieces: Iterable[Piece], metered: set[Crossing]) -> dict[tuple[str, bool], _Sides]:
    """Returns for each traffic that is translated, and each way through, where it is metered."""
    found: dict[tuple[str, bool], _Sides] = {}
    for piece in pieces:
        for path in piece.paths if piece.version == 4 else ():
            split = _split(path, one)
            if split:
                sides = found.setdefault((piece.traffic, split[0]), _Sides(split[0]))
                sides.before |= dict.fromkeys(each for each in path[:split[1]] if each in metered)
                sides.after |= dict.fromkeys(each for each in path[split[1]:] if each in metered)
    return found


def _words(crossings: Iterable[Crossing]) -> str:
    names = [f"{one.device} {one.interface} {one.direction.value}" for one in crossings]
    return ", ".join(names[:MOST_NAMED]) + (", .." if len(names) > MOST_NAMED else "")


def _finding(rule: Rule, name: str, sides: _Sides, one: Translation) -> Finding:
    """Returns what a rule means for the records of a traffic."""
    part = "sources" if sides.outward else "destinations"
    says = f"NAT: {rule.inside} have the {part} {rule.outside} outside" if sides.outward else \
        f"NAT: packets that come back to {rule.inside.removeprefix('packets of ')} have the {part} {rule.outside} outside"
    has, device = "outside" if sides.outward else "inside", one.device
    if sides.after:
        also = f", and before it at {_words(sides.before)}" if sides.before else ""
        return Finding(Grade.NOT_CARRIED_OVER, rule.place, f"{says}. '{name}' is metered after the translation, at "
                       f"{_words(sides.after)}{also}: records made after it have the {part} of the {has}, and the documents "
                       "have those with which the packets come in", "meter before the translation alone, declare the traffic "
                       "with the addresses that its records have, or accept this", Topic.NAT, None, device)
    if sides.before and not sides.outward:
        return Finding(Grade.PREMISE, rule.place, f"{says}. '{name}' is metered before the translation alone, at "
                       f"{_words(sides.before)}: its records have these {part}, and so must its declaration have, if it names "
                       f"{part}", "", Topic.NAT, None, device)
    where = f"before the translation alone, at {_words(sides.before)}: its records have the {part} with which the packets " \
            "come in" if sides.before else "nowhere on the paths that lead through the translation"
    if sides.before and not one.is_sure:
        return Finding(Grade.PREMISE, rule.place, f"{says}. '{name}' is taken to be metered {where}", "compare the addresses in "
                       "its records", Topic.NAT, None, device)
    return Finding(Grade.NOTE, rule.place, f"{says}. '{name}' is metered {where}", "", Topic.NAT, None, device)


def report_translation(one: Translation, pieces: Iterable[Piece], metered: set[Crossing]) -> list[Finding]:
    """Returns for each rule and each traffic that passes through it what records have which addresses."""
    sides = _sides(one, pieces, metered)
    found = [_finding(rule, name, each, one) for rule in one.rules for (name, _), each in sides.items()]
    return found or [Finding(Grade.NOTE, rule.place, "NAT: no declared path leads from an inside to an outside interface, or "
                             "back", "", Topic.NAT, None, one.device) for rule in one.rules]
