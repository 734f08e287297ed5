"""Terms of Junos' firewall filters as boxes of packets."""
from __future__ import annotations

import ipaddress
import re
from dataclasses import dataclass, field

from once_tools import boxes
from once_tools.boxes import Box, Interval
from once_tools.model import Place

PROTOCOLS = {"ah": 51, "egp": 8, "esp": 50, "gre": 47, "icmp": 1, "icmp6": 58, "icmpv6": 58, "igmp": 2, "ipip": 4,
             "ipv6": 41,
             "ospf": 89, "pim": 103, "rsvp": 46, "sctp": 132, "tcp": 6, "udp": 17, "vrrp": 112}
PORTS = {"bgp": 179, "domain": 53, "ftp": 21, "ftp-data": 20, "http": 80, "https": 443, "imap": 143, "ldap": 389,
         "ntp": 123, "pop3": 110,
         "radius": 1812, "smtp": 25, "snmp": 161, "snmptrap": 162, "ssh": 22, "syslog": 514, "tacacs": 49, "telnet": 23,
         "tftp": 69}
CODES = {"be": 0, "ef": 46, **{f"cs{n}": 8 * n for n in range(8)},
         **{f"af{c}{d}": 8 * c + 2 * d for c in range(1, 5) for d in range(1, 4)}}
PRECEDENCES = {"routine": 0, "priority": 1, "immediate": 2, "flash": 3, "flash-override": 4, "critical-ecp": 5,
               "internet-control": 6,
               "net-control": 7}
SOURCES = {"source-address": "source", "source-prefix-list": "source", "destination-address": "destination",
           "destination-prefix-list": "destination", "address": "either", "prefix-list": "either"}
NUMBERS = {"protocol": "protocolIdentifier", "next-header": "protocolIdentifier", "source-port": "sourceTransportPort",
           "destination-port": "destinationTransportPort", "port": "either", "dscp": "ipClassOfService",
           "traffic-class": "ipClassOfService",
           "precedence": "ipClassOfService"}
# Actions that do not decide whether later terms see a packet, nor whether it is sampled.
MODIFIERS = {"count", "log", "syslog", "policer", "three-color-policer", "hierarchical-policer", "loss-priority",
             "forwarding-class", "dscp",
             "traffic-class", "port-mirror", "port-mirror-instance", "packet-mode", "service-accounting",
             "prefix-action", "accounting"}
ENDING = {"accept", "discard", "reject", "routing-instance", "logical-system", "topology", "next-interface", "next-ip",
          "next-ip6", "ipsec-sa",
          "next-hop-group", "service-filter-hit", "decapsulate", "encapsulate"}


class UnreadCondition(Exception):
    """A condition or action that has no region here, with its place and why."""

    def __init__(self, place: Place, why: str) -> None:
        super().__init__(why)
        self.place = place
        self.why = why


@dataclass
class TermText:
    """The statements of a term: conditions and actions, each with its words and place."""

    name: str
    place: Place
    conditions: list[tuple[list[str], Place]] = field(default_factory=list)
    actions: list[tuple[list[str], Place]] = field(default_factory=list)
    seen: set[tuple[int, tuple[str, ...]]] = field(default_factory=set)

    def add(self, statements: list[tuple[list[str], Place]], words: list[str], place: Place) -> None:
        """Adds a condition or an action, unless the same one was there before."""
        key = (id(statements), tuple(words))
        if key not in self.seen:
            self.seen.add(key)
            statements.append((words, place))


def region_of(term: TermText, version: int, lists: dict[str, list[str]],
              premises: list[tuple[Place, str]]) -> list[Box]:
    """Returns the packets that a term's conditions hold for: one value of each kind. Raises UnreadCondition."""
    region = [boxes.family(version)]
    kinds: dict[str, list[tuple[list[str], Place]]] = {}
    for words, place in term.conditions:
        if not words:
            raise UnreadCondition(place, "is an empty condition")
        kinds.setdefault(_kind_of(words[0], place), []).append((words, place))
    for kind, conditions in kinds.items():
        if kind in ("source", "destination", "either"):
            found = _addresses(kind, conditions, version, lists, premises)
        else:
            found = _numbers(kind, conditions, version)
        region = boxes.common(region, found)
    return region


def _kind_of(word: str, place: Place) -> str:
    name = word.removesuffix("-except")
    if name in SOURCES:
        return SOURCES[name]
    if name in NUMBERS:
        return name
    raise UnreadCondition(place, f"`{word}` is a condition that has no axis, or is not known here")


def _addresses(end: str, conditions: list[tuple[list[str], Place]], version: int, lists: dict[str, list[str]],
               premises: list[tuple[Place, str]]) -> list[Box]:
    """Returns the packets whose address matches: the longest prefix decides, and with `except` it excludes."""
    prefixes: dict[Interval, bool] = {}
    for words, place in conditions:
        if len(words) < 2 or words[2:] not in ([], ["except"]):
            raise UnreadCondition(place, "is not an address with or without `except`")
        texts = lists.get(words[1]) if words[0].endswith("prefix-list") else [words[1]]
        if texts is None:
            raise UnreadCondition(place, f"there is not a prefix-list {words[1]}")
        for text in texts:
            interval = _prefix(text, version, place)
            if interval is not None:
                prefixes[interval] = words[2:] != ["except"]
    if prefixes and not any(prefixes.values()):
        premises.append((conditions[0][1], "with `except` alone, every other address is taken to match"))
        prefixes.setdefault((0, (1 << (32 if version == 4 else 128)) - 1), True)
    region: list[Box] = []
    for interval, holds in sorted(prefixes.items(), key=lambda item: item[0][0] - item[0][1]):
        taken = [_at(end, interval, version)] if end != "either" else _either(interval, version)
        region = boxes.difference(region, taken)
        region = region + taken if holds else region
    return region


def _at(end: str, interval: Interval, version: int) -> Box:
    return boxes.family(version).cut(f"{end}IPv{version}Address", interval)


def _either(interval: Interval, version: int) -> list[Box]:
    return boxes.disjoint([_at("source", interval, version), _at("destination", interval, version)])


def _prefix(text: str, version: int, place: Place) -> Interval | None:
    """Returns the addresses of a prefix, None if it is of the other version of IP."""
    try:
        network = ipaddress.ip_network(text, strict=False)
    except ValueError:
        raise UnreadCondition(place, f"{text} is not a prefix") from None
    return (int(network.network_address), int(network.broadcast_address)) if network.version == version else None


def _numbers(kind: str, conditions: list[tuple[list[str], Place]], version: int) -> list[Box]:
    """Returns the packets that have one of the values, or with -except none of them."""
    whole = [boxes.family(version)]
    excluded = {words[0].endswith("-except") for words, _ in conditions}
    if len(excluded) > 1:
        raise UnreadCondition(conditions[0][1], f"`{kind}` is used together with `{kind}-except`")
    found: list[Box] = []
    for words, place in conditions:
        if len(words) < 2:
            raise UnreadCondition(place, "has no value")
        for word in words[1:]:
            found += _valued(kind, _interval(kind, word, place), whole[0])
    region = boxes.disjoint(found)
    return boxes.difference(whole, region) if True in excluded else region


def _valued(kind: str, interval: Interval, whole: Box) -> list[Box]:
    if NUMBERS[kind] == "either":
        return [whole.cut("sourceTransportPort", interval), whole.cut("destinationTransportPort", interval)]
    return [whole.cut(NUMBERS[kind], interval)]


def _interval(kind: str, word: str, place: Place) -> Interval:
    """Returns the values that a word means on its axis: a number, a range or a name."""
    usual = PORTS if "port" in kind else PROTOCOLS
    names = {"dscp": CODES, "traffic-class": CODES, "precedence": PRECEDENCES}.get(kind, usual)
    most = {"dscp": 63, "traffic-class": 63, "precedence": 7}.get(kind, 65535 if "port" in kind else 255)
    low, hyphen, high = (word, "", "") if word in names else word.partition("-")
    values = [names[one] if one in names else int(one) if re.fullmatch("[0-9]{1,5}", one) else -1
              for one in (low, high or low)]
    if not 0 <= values[0] <= values[1] <= most:
        raise UnreadCondition(place, f"`{word}` is not a value of {kind} that is known here")
    shift = {"dscp": 2, "traffic-class": 2, "precedence": 5}.get(kind, 0)
    return values[0] << shift, ((values[1] + 1) << shift) - 1


def samples_and_ends(term: TermText) -> tuple[bool, bool]:
    """Returns whether a term samples packets, and whether later terms do not see them. Raises UnreadCondition.

    A term without `next term` ends: with modifiers alone, or no action, it accepts.
    """
    words = [(one[0] if one else "", one, place) for one, place in term.actions]
    samples = any(word == "sample" for word, _, _ in words)
    goes_on = any(one[:2] == ["next", "term"] for _, one, _ in words)
    for word, one, place in words:
        if word not in MODIFIERS and word not in ENDING and word != "sample" and one[:2] != ["next", "term"]:
            raise UnreadCondition(place, f"`{word}` is an action that is not known here")
        if samples and word in ("discard", "reject"):
            raise UnreadCondition(place, "whether a packet that is dropped is sampled is not known")
    return samples, not goes_on
