"""Expressions of pcap-filter(7) as regions: the packets of one version of IP that an expression passes."""
from __future__ import annotations

import ipaddress
import re
from dataclasses import dataclass

from once_tools import boxes
from once_tools.boxes import Box, Interval

PROTOCOLS = {"icmp": 1, "igmp": 2, "ipip": 4, "tcp": 6, "egp": 8, "igrp": 9, "udp": 17, "rsvp": 46, "gre": 47,
             "esp": 50,
             "ah": 51, "icmp6": 58, "ipv6-icmp": 58, "ospf": 89, "pim": 103, "vrrp": 112, "carp": 112, "l2tp": 115,
             "sctp": 132}
# The versions of IP that a keyword without an identifier is about.
ALONE = {"tcp": (4, 6), "udp": (4, 6), "sctp": (4, 6), "icmp": (4,), "icmp6": (6,), "igmp": (4,), "igrp": (4,),
         "pim": (4, 6),
         "vrrp": (4,), "carp": (4,), "ah": (4, 6), "esp": (4, 6)}
WITH_PORTS = ("tcp", "udp", "sctp")
TYPES = ("host", "net", "port", "portrange", "proto")
CONJUNCTIONS = {"and": "and", "&&": "and", "or": "or", "||": "or"}
WORDS = re.compile(r"\(|\)|&&|\|\||![=]?|[^\s()!&|]+|[&|]")


class UnreadFilter(Exception):
    """A part of an expression that has no region here; `part` is its words, and the text says why."""

    def __init__(self, part: str, why: str) -> None:
        super().__init__(why)
        self.part = part
        self.why = why


@dataclass(frozen=True)
class Qualifiers:
    """What comes before an identifier: a protocol, a direction and a type; empty where nothing is said."""

    protocol: str = ""
    direction: str = ""
    kind: str = ""


def fewest_union(first: list[Box], second: list[Box]) -> list[Box]:
    """Returns the packets of either region, with that one whole which makes fewer selection processes."""
    choices = [boxes.union(first, second), boxes.union(second, first)]
    return min(choices, key=lambda region: sum(map(boxes.selection_count, region)))


class _Parser:
    """Reads an expression for one version of IP; `and` and `or` have one precedence and associate to the left."""

    def __init__(self, expression: str, version: int) -> None:
        self.words: list[str] = WORDS.findall(expression)
        self.place = 0
        self.version = version
        self.every = [boxes.family(version)]
        self.last: Qualifiers | None = None

    def peek(self) -> str:
        return self.words[self.place] if self.place < len(self.words) else ""

    def take(self) -> str:
        word = self.peek()
        self.place += 1
        return word

    def expression(self, depth: int = 0) -> list[Box]:
        found = self.term(depth)
        while self.peek() in CONJUNCTIONS:
            is_and = CONJUNCTIONS[self.take()] == "and"
            other = self.term(depth)
            found = boxes.common(found, other) if is_and else fewest_union(found, other)
        return found

    def term(self, depth: int) -> list[Box]:
        if depth > 100:
            raise UnreadFilter(self.peek(), "is nested more than 100 deep")
        word = self.peek()
        if word in ("not", "!"):
            self.take()
            return boxes.difference(self.every, self.term(depth + 1))
        if word == "(":
            self.last = None
            return self.group(depth)
        return self.primitive(depth)

    def group(self, depth: int) -> list[Box]:
        self.take()
        found = self.expression(depth + 1)
        if self.take() != ")":
            raise UnreadFilter("(", "is not closed")
        return found

    def primitive(self, depth: int) -> list[Box]:
        start = self.place
        qualifiers = self.qualifiers()
        if self.place == start:
            if self.last is None or not self.is_identifier():
                raise UnreadFilter(self.text(start), "is not a primitive that this program reads")
            return self.identifier(self.last, start)
        if self.peek() == "(" and (qualifiers.kind or qualifiers.direction):
            self.last = qualifiers
            return self.group(depth)
        if not self.is_identifier():
            return self.keyword(qualifiers, start)
        if not qualifiers.direction and not qualifiers.kind and self.peek() != "multicast":
            raise UnreadFilter(self.text(start), "is followed by neither `and` nor `or`")
        self.last = qualifiers
        return self.identifier(qualifiers, start)

    def is_identifier(self) -> bool:
        word = self.peek()
        return word not in ("", "(", ")", "not", "!") and word not in CONJUNCTIONS

    def qualifiers(self) -> Qualifiers:
        protocol = direction = kind = ""
        if self.peek() in ("ip", "ip6") or self.peek() in ALONE:
            protocol = self.take()
        if self.peek() in ("src", "dst"):
            direction = self.take()
            pair = self.words[self.place:self.place + 2]
            if len(pair) == 2 and pair[0] in ("or", "and") and {direction, pair[1]} == {"src", "dst"}:
                direction = "either" if pair[0] == "or" else "each"
                self.place += 2
        if self.peek() in TYPES:
            kind = self.take()
        return Qualifiers(protocol, direction, kind)

    def keyword(self, qualifiers: Qualifiers, start: int) -> list[Box]:
        """Returns the packets of a protocol whose keyword has no identifier; none may refer to it."""
        name, self.last = qualifiers.protocol, None
        if not name or qualifiers.direction or qualifiers.kind:
            raise UnreadFilter(self.text(start), "has no address, port or protocol after it")
        if name in ("ip", "ip6"):
            return self.every if self.version == (4 if name == "ip" else 6) else []
        return self.of_protocol(PROTOCOLS[name], ALONE[name])

    def of_protocol(self, number: int, versions: tuple[int, ...]) -> list[Box]:
        if self.version not in versions:
            return []
        return [self.every[0].cut("protocolIdentifier", (number, number))]

    def text(self, start: int) -> str:
        return " ".join(self.words[start:max(self.place, start + 1)])

    def identifier(self, qualifiers: Qualifiers, start: int) -> list[Box]:
        word = self.take()
        if qualifiers.kind in ("port", "portrange"):
            return self.ports(qualifiers, word, start)
        if qualifiers.kind == "proto":
            return self.numbered(qualifiers, word, start)
        if word == "multicast" and qualifiers.protocol in ("ip", "ip6") and not qualifiers.kind:
            return self.multicast(qualifiers)
        if qualifiers.protocol not in ("", "ip", "ip6"):
            raise UnreadFilter(self.text(start), "qualifies an address with a transport protocol")
        return self.addresses(qualifiers, word, start)

    def multicast(self, qualifiers: Qualifiers) -> list[Box]:
        prefix = "224.0.0.0/3" if qualifiers.protocol == "ip" else "ff00::/8"
        return self.at("dst", ipaddress.ip_network(prefix))

    def addresses(self, qualifiers: Qualifiers, word: str, start: int) -> list[Box]:
        network = self.network(qualifiers, word, start)
        if qualifiers.protocol and network.version != (4 if qualifiers.protocol == "ip" else 6):
            raise UnreadFilter(self.text(start), "has an address of the other version of IP")
        return self.ends(qualifiers.direction, self.at("src", network), self.at("dst", network))

    def network(self, qualifiers: Qualifiers, word: str, start: int) -> ipaddress.IPv4Network | ipaddress.IPv6Network:
        if qualifiers.kind != "net" and "/" in word:
            raise UnreadFilter(self.text(start), "has a prefix length without `net`")
        if self.peek() == "mask" and qualifiers.kind == "net":
            self.take()
            word = f"{word}/{self.take()}"
        address, slash, length = word.partition("/")
        if re.fullmatch(r"[0-9]+(\.[0-9]+){0,2}", address) and qualifiers.kind == "net":
            octets = address.count(".") + 1
            address = address + ".0" * (4 - octets)
            length = length if slash else str(8 * octets)
        try:
            return ipaddress.ip_network(f"{address}/{length}" if length else address)
        except ValueError as error:
            why = "has bits beyond its prefix length, which libpcap refuses" if "host bits" in str(error) else \
                "is not an address, prefix or primitive that this program reads"
            raise UnreadFilter(self.text(start), why) from None

    def at(self, end: str, network: ipaddress.IPv4Network | ipaddress.IPv6Network) -> list[Box]:
        if network.version != self.version:
            return []
        axis = f"{'source' if end == 'src' else 'destination'}IPv{self.version}Address"
        return [self.every[0].cut(axis, (int(network.network_address), int(network.broadcast_address)))]

    def ends(self, direction: str, source: list[Box], destination: list[Box]) -> list[Box]:
        if direction == "src":
            return source
        if direction == "dst":
            return destination
        return boxes.common(source, destination) if direction == "each" else boxes.union(source, destination)

    def ports(self, qualifiers: Qualifiers, word: str, start: int) -> list[Box]:
        if qualifiers.protocol not in ("", *WITH_PORTS):
            raise UnreadFilter(self.text(start), "asks for a port of a protocol without ports")
        low, hyphen, high = word.partition("-")
        if hyphen and qualifiers.kind == "port" or not hyphen and qualifiers.kind == "portrange":
            raise UnreadFilter(self.text(start), "is no " + qualifiers.kind)
        interval = (self.number(low, 65535, start), self.number(high or low, 65535, start))
        if interval[0] > interval[1]:
            interval = (interval[1], interval[0])
        found: list[Box] = []
        for name in (qualifiers.protocol,) if qualifiers.protocol else WITH_PORTS:
            found += self.ports_of(PROTOCOLS[name], interval, qualifiers.direction)
        return found

    def ports_of(self, protocol: int, interval: Interval, direction: str) -> list[Box]:
        one = self.every[0].cut("protocolIdentifier", (protocol, protocol))
        source, destination = one.cut("sourceTransportPort", interval), one.cut("destinationTransportPort", interval)
        return self.ends(direction, [source], [destination])

    def numbered(self, qualifiers: Qualifiers, word: str, start: int) -> list[Box]:
        name = word.removeprefix("\\")
        if qualifiers.direction or qualifiers.protocol not in ("", "ip", "ip6"):
            raise UnreadFilter(self.text(start), "has a qualifier that `proto` does not take")
        number = PROTOCOLS[name] if name in PROTOCOLS else self.number(name, 255, start)
        versions = {"": (4, 6), "ip": (4,), "ip6": (6,)}[qualifiers.protocol]
        return self.of_protocol(number, versions)

    def number(self, word: str, most: int, start: int) -> int:
        if not re.fullmatch("[0-9]{1,6}", word) or int(word) > most:
            raise UnreadFilter(self.text(start), f"is not a number from 0 to {most}; names are not looked up")
        return int(word)


def region_of(expression: str, version: int) -> list[Box]:
    """Returns the packets of IPv4 (4) or IPv6 (6) that pass an expression; an empty one passes all.

    Raises UnreadFilter, or TooManyBoxes.
    """
    parser = _Parser(expression, version)
    if not parser.words:
        return parser.every
    found = parser.expression()
    if parser.place < len(parser.words):
        raise UnreadFilter(" ".join(parser.words[parser.place:]), "follows a whole expression")
    return found
