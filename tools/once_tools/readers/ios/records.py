"""Flow records: what flows are distinguished by, and what is counted."""
from __future__ import annotations

from dataclasses import dataclass, field

from once_tools.elements import AXES, COUNTERS
from once_tools.model import CacheField, Place, Topic
from once_tools.readers.notes import Notes
from once_tools.readers.trees import Node, Words

FIELDS: dict[Words, str] = {
    ("ipv4", "source", "address"): "sourceIPv4Address",
    ("ipv4", "destination", "address"): "destinationIPv4Address",
    ("ipv4", "protocol"): "protocolIdentifier",
    ("ipv4", "tos"): "ipClassOfService",
    ("ipv4", "version"): "ipVersion",
    ("ipv6", "source", "address"): "sourceIPv6Address",
    ("ipv6", "destination", "address"): "destinationIPv6Address",
    ("ipv6", "protocol"): "protocolIdentifier",
    ("ipv6", "traffic-class"): "ipClassOfService",
    ("ipv6", "version"): "ipVersion",
    ("transport", "source-port"): "sourceTransportPort",
    ("transport", "destination-port"): "destinationTransportPort",
}

# Fields that are no axis. A record that matches them is finer, and sums over it stay the same.
OTHER_MATCHES: list[Words] = [
    ("interface",), ("flow",), ("datalink",), ("application",), ("routing",), ("mpls",), ("connection",), ("policy",),
    ("vrf",), ("cts",), ("overlay",), ("pppoe",), ("wireless",), ("metadata",), ("timestamp",), ("fpm",),
    ("ipv4", "ttl"), ("ipv4", "header-length"), ("ipv4", "id"), ("ipv4", "length"), ("ipv4", "total-length"),
    ("ipv4", "fragmentation"), ("ipv4", "option"), ("ipv4", "section"), ("ipv4", "initiator"), ("ipv4", "responder"),
    ("ipv6", "hop-limit"), ("ipv6", "flow-label"), ("ipv6", "next-header"), ("ipv6", "extension"),
    ("ipv6", "fragmentation"), ("ipv6", "length"), ("ipv6", "payload-length"), ("ipv6", "section"),
    ("transport", "icmp"), ("transport", "igmp"), ("transport", "rtp"), ("transport", "packets"),
]

# Keys that are no axes, by which collectors choose records.
CHOSEN_BY: dict[Words, str] = {("interface", "input"): "ingressInterface", ("interface", "output"): "egressInterface",
                               ("flow", "direction"): "flowDirection"}

# Fields that hold part of an axis, with the report that they do not suffice for.
PARTS: list[tuple[Words, str]] = [
    (("ipv4", "dscp"), "class of service"),
    (("ipv4", "precedence"), "class of service"),
    (("ipv6", "dscp"), "class of service"),
    (("ipv6", "precedence"), "class of service"),
    (("ipv4", "source"), "source"),
    (("ipv4", "destination"), "destination"),
    (("ipv6", "source"), "source"),
    (("ipv6", "destination"), "destination"),
    (("transport", "tcp"), "port"),
    (("transport", "udp"), "port"),
]

HARMLESS_COLLECTS = {"timestamp", "interface", "transport", "routing", "ipv4", "ipv6", "flow", "application", "datalink",
                     "mpls", "connection", "policy", "monitor", "waas", "wireless", "art", "pfr", "cts", "vrf", "overlay",
                     "icmp", "media", "account-on-resolution"}
PORTS = ["sourceTransportPort", "destinationTransportPort"]
V4 = ["sourceIPv4Address", "destinationIPv4Address"]
V6 = ["sourceIPv6Address", "destinationIPv6Address"]

# The keys of predefined records that are axes; those of prefixes and autonomous systems have none.
PREDEFINED: dict[str, list[str]] = {
    "original-input": ["protocolIdentifier", *PORTS, "ipClassOfService"],
    "original-output": ["protocolIdentifier", *PORTS, "ipClassOfService"],
    "as": [], "prefix": [], "source-prefix": [], "destination-prefix": [],
    "as-tos": ["ipClassOfService"], "prefix-tos": ["ipClassOfService"], "bgp-nexthop-tos": ["ipClassOfService"],
    "source-prefix-tos": ["ipClassOfService"], "destination-prefix-tos": ["ipClassOfService"],
    "bgp-nexthop": [],
    "protocol-port": ["protocolIdentifier", *PORTS],
    "protocol-port-tos": ["protocolIdentifier", *PORTS, "ipClassOfService"],
    "prefix-port": ["protocolIdentifier", *PORTS, "ipClassOfService"],
}


@dataclass
class Record:
    """A flow record: its fields that are axes or counters, in the order of a document, and what is to be reported."""

    name: str
    place: Place
    fields: list[CacheField] = field(default_factory=list)
    notes: Notes = field(default_factory=Notes)
    other_keys: list[str] = field(default_factory=list)

    def add(self, element: str, is_key: bool, place: Place, octets: int | None = None) -> None:
        """Adds a field; a key goes before a field that is merely collected."""
        there = [one for one in self.fields if one.element == element]
        if there and is_key:
            there[0].is_key = True
        elif not there:
            self.fields.append(CacheField(element, is_key, place, octets))

    def sort(self) -> None:
        """Puts keys first, in the order of axes, then collected axes, then counters."""
        order = [*AXES, *COUNTERS]
        self.fields.sort(key=lambda one: (one.element in COUNTERS, not one.is_key, order.index(one.element)))

    def counters(self) -> set[str]:
        """Returns the counters that the record has."""
        return {one.element for one in self.fields} & set(COUNTERS)


def starts_with(words: Words, patterns: list[Words]) -> bool:
    """Returns whether the words begin with one of the patterns."""
    return any(words[: len(one)] == one for one in patterns)


def read_match(record: Record, node: Node) -> None:
    """Reads a line `match ..`."""
    words, place = node.words[1:], node.place
    element = FIELDS.get(words)
    part = next((what for pattern, what in PARTS if words[: len(pattern)] == pattern), "")
    if element:
        record.add(element, True, place)
    elif part:
        record.notes.note(place, f"this holds a part of an axis and is left out of the keys: a report by {part} cannot be "
                                 "read from these records")
    elif starts_with(words, OTHER_MATCHES):
        record.notes.note(place, "this is no axis and left out of the keys: records are finer, their sums the same")
        record.other_keys += [CHOSEN_BY[words]] if words in CHOSEN_BY else []
    else:
        record.notes.unknown(place, "a flow record")


def read_counter(record: Record, node: Node) -> None:
    """Reads a line `collect counter ..`."""
    words, place = node.words[2:], node.place
    element = {"bytes": "octetDeltaCount", "packets": "packetDeltaCount"}.get(words[0] if words else "")
    rest = [word for word in words[1:] if word != "exported"]
    if element is None:
        record.notes.unknown(place, "a flow record")
    elif rest in ([], ["long"]):
        octets = 8 if rest else 4
        record.add(element, False, place, octets)
        if octets == 4:
            record.notes.premise(
                place, "the counter has 4 octets, which once refuses (110); the document has 8, so it speaks of records "
                       "whose sums stay below 4,294,967,296", f"write '{node.text} long'", 110)
    elif rest[0] in ("layer2", "squared", "replicated", "permanent", "dropped") or rest[:2] == ["long", "permanent"]:
        record.notes.note(place, "this is another counter than that of IP packets and octets, and is left out")
    else:
        record.notes.unknown(place, "a flow record")


def read_collect(record: Record, node: Node) -> None:
    """Reads a line `collect ..`."""
    words = node.words[1:]
    element = FIELDS.get(words)
    if words[:1] == ("counter",):
        read_counter(record, node)
    elif element:
        record.add(element, False, node.place)
    elif not words or words[0] not in HARMLESS_COLLECTS:
        record.notes.unknown(node.place, "a flow record")


def require_counters(record: Record) -> None:
    """Reports counters that the record does not have."""
    for element, what in (("octetDeltaCount", "bytes"), ("packetDeltaCount", "packets")):
        if element not in record.counters():
            record.notes.lost(
                record.place, f"the record has no counter of {what} of IP packets, which once refuses (114): the document "
                              "has it, and totals of it are not those of the device",
                f"add 'collect counter {what} long'", Topic.COUNTERS, 114)


def read_record(name: str, node: Node) -> Record:
    """Returns the record of a section `flow record NAME`."""
    record = Record(name, node.place)
    for line in node.children:
        if line.starts("match") and len(line.words) > 1:
            read_match(record, line)
        elif line.starts("collect"):
            read_collect(record, line)
        elif not line.starts("description"):
            record.notes.unknown(line.place, "a flow record")
    require_counters(record)
    record.sort()
    return record


def predefined(words: Words, place: Place) -> Record | None:
    """Returns the record that `record WORDS` of a monitor means if it is a predefined one."""
    if words[:1] in (("netflow-original",), ("platform-original",)):
        family, kind = "ipv6" if "ipv6" in words else "ipv4", "original-input"
    elif len(words) >= 3 and words[0] == "netflow" and words[1] in ("ipv4", "ipv6"):
        family, kind = words[1], words[2]
    else:
        return None
    if kind not in PREDEFINED:
        return None
    record = Record(" ".join(words), place)
    addresses = V4 if family == "ipv4" else V6
    for element in [*(addresses if kind.startswith("original") else []), *PREDEFINED[kind]]:
        record.add(element, True, place)
    for element in COUNTERS:
        record.add(element, False, place, 4)
    record.notes.premise(
        place, "the predefined record is taken to have the keys " + (", ".join(one.element for one in record.fields
               if one.is_key) or "of no axis") + " and counters of 4 octets, which was not confirmed on each platform; the "
        "document has 8, so it speaks of records whose sums stay below 4,294,967,296",
        f"compare 'show flow record {record.name}', or define a record with 'collect counter bytes long'", 110)
    record.sort()
    return record
