"""A filter of libpcap (pcap-filter(7)) as properties of packets, if it is a conjunction: parts that must all hold."""
from __future__ import annotations

import ipaddress
import re

from once_tools import elements
from once_tools.tables.cells import Entry

PROTOCOLS = {"tcp": 6, "udp": 17, "icmp": 1, "icmp6": 58, "sctp": 132, "gre": 47, "esp": 50, "igmp": 2}
ENDS = {"src": "source", "dst": "destination"}


def match(element: str, value: object) -> list[Entry]:
    return [{"ieName": element, "value": str(value)}]


def protocol(text: str) -> list[Entry] | None:
    number = PROTOCOLS.get(text, text)
    found = match("protocolIdentifier", number) if elements.is_number(str(number), 0, 255) else None
    if found and text in ("icmp", "igmp"):
        found += match("ipVersion", 4)
    return found + match("ipVersion", 6) if found and text == "icmp6" else found


def address(end: str, text: str) -> list[Entry] | None:
    try:
        found = ipaddress.ip_network(text)
    except ValueError:
        return None
    if found.prefixlen == 0:
        return match("ipVersion", found.version)
    kind = "Address" if found.prefixlen == found.max_prefixlen else "Prefix"
    value = found.network_address if kind == "Address" else found
    return match("%sIPv%d%s" % (ENDS[end], found.version, kind), value)


def part(text: str) -> list[Entry] | None:
    """The properties that a part asks for, or nothing where it isn't one for each."""
    if text in ("ip", "ip6"):
        return match("ipVersion", 4 if text == "ip" else 6)
    if text in PROTOCOLS:
        return protocol(text)
    words = re.fullmatch(r"(?:(ip6?) )?proto (\S+)", text)
    if words:
        found = protocol(words[2].lstrip("\\"))
        return found and found + (match("ipVersion", 4 if words[1] == "ip" else 6) if words[1] else [])
    words = re.fullmatch(r"(?:(tcp|udp) )?(src|dst) port ([0-9]+)", text)
    if words and elements.is_number(words[3], 1, 65535):
        return match(ENDS[words[2]] + "TransportPort", words[3]) + (protocol(words[1]) or [] if words[1] else [])
    words = re.fullmatch(r"(src|dst) (?:host |net )?(\S+)", text)
    return address(words[1], words[2]) if words else None


def matches_of(expression: str, lost: list[str]) -> list[Entry]:
    """The properties of a filter; says of each part that is none that it couldn't be carried over."""
    text = " ".join(expression.split())
    if not text:
        return []
    parts = re.split(r" and | && ", text)
    if re.search(r"\bor\b|\bnot\b|[|!()]", text):
        parts = [text]
    found: list[Entry] = []
    for one in parts:
        properties = part(one)
        if properties is None:
            lost.append("the filter %r: it isn't an element with one value or prefix; the document meters all packets "
                        "instead" % one)
        else:
            found += [each for each in properties if each not in found]
    return found
