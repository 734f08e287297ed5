"""What configurations say about metering, in the terms of RFC 6728, before it is written as documents for `once`.

A reader turns the configuration of one device into a `Device`. The merge joins devices into a network, and the path
finders turn traffic declarations into `TrafficClass`es. Everything carries the `Place` that it was read from, so that a
report can cite files and lines.
"""
from __future__ import annotations

import enum
from dataclasses import dataclass, field, replace
from typing import Mapping


@dataclass(frozen=True)
class Place:
    """A line of a file. `line` is 1-based; 0 stands for the file as a whole. `text` is the line's own words."""

    file: str
    line: int = 0
    text: str = ""


class Grade(enum.Enum):
    """How much a finding bears on the answer."""

    NOTE = "note"  # carried over exactly, or cannot reach the report
    PREMISE = "premise"  # carried over under a condition that the configuration does not show
    NOT_CARRIED_OVER = "not carried over"  # the document says something other than the device does
    WARNING = "warning"  # carried over exactly; the audit will refute, or something is metered nowhere
    WRONG = "wrong"  # no document can be written


class Topic(enum.Enum):
    """What a finding is about; `[accept]` in a project file names these, by device."""

    SAMPLER = "sampler"
    COUNTERS = "counters"
    FILTER = "filter"
    NAT = "nat"
    MPLS = "mpls"
    MASK = "mask"
    UNKNOWN = "unknown"
    OTHER = "other"


@dataclass(frozen=True)
class Finding:
    """A statement of a report. `number` is the refusal of `once` that it leads to, if any.

    `exporters` names the exporting processes of the device that the finding bears on: if none of them leads to the
    report, the merge lowers the finding to a note. An empty tuple bears on the device as a whole and is never lowered.
    `is_failure` marks a file or program that failed, which the exit status distinguishes from wrong contents.
    """

    grade: Grade
    place: Place
    says: str
    todo: str = ""
    topic: Topic = Topic.OTHER
    number: int | None = None
    device: str = ""
    exporters: tuple[str, ...] = ()
    is_failure: bool = False


class Direction(enum.Enum):
    INGRESS = "ingress"
    EGRESS = "egress"
    BOTH = "both"


@dataclass
class Interface:
    """An interface as the configuration spells it. `addresses` are `ADDRESS/LENGTH`; `members` are the interfaces of a
    bundle or VLAN; `parent` is the main interface of a subinterface; `lacks` are the versions of IP that the configuration
    shows to be off; `has` those that it shows to be on, also without an address of their own."""

    name: str
    place: Place
    aliases: list[str] = field(default_factory=list)
    addresses: list[str] = field(default_factory=list)
    vrf: str = ""
    members: list[str] = field(default_factory=list)
    parent: str = ""
    vlan: int | None = None
    tunnel_source: str = ""
    tunnel_destination: str = ""
    index: int | None = None
    description: str = ""
    is_shut: bool = False
    lacks: frozenset[int] = frozenset()
    has: frozenset[int] = frozenset()


# The values that packets must have: an axis or prefix element (`ipVersion`, `sourceIPv4Prefix`, ..) and its value as a
# filterMatch spells it. A selection process passes the packets that have all of them.
Match = Mapping[str, str]


@dataclass
class Selection:
    """A selection process: the packets with all values of `match`, into the cache of this name (RFC 6728, 4.2)."""

    name: str
    match: Match
    cache: str
    place: Place


@dataclass
class Point:
    """An observation point: it hands each packet that crosses one of its interfaces in its direction to each of its
    selection processes. `sampling` is a selector that precedes them, for `--faithful` alone."""

    name: str
    interfaces: list[str]
    direction: Direction
    selections: list[Selection]
    place: Place
    interface_places: list[Place] = field(default_factory=list)
    sampling: dict[str, object] | None = None
    domain: int = 0


@dataclass
class CacheField:
    """A field of a cache's records. `octets` is the counter's length, None where it is the element's own."""

    element: str
    is_key: bool
    place: Place
    octets: int | None = None


@dataclass
class Cache:
    """A cache. `kind` is immediate, timeout, natural or permanent; `settings` are members such as activeTimeout.
    `other_keys` are flow keys that are no axes, such as ingressInterface, egressInterface and flowDirection."""

    name: str
    kind: str
    fields: list[CacheField]
    exporters: list[str]
    place: Place
    settings: dict[str, int] = field(default_factory=dict)
    other_keys: list[str] = field(default_factory=list)


@dataclass
class Destination:
    """Where an exporter sends. `transport` is udp, tcp or sctp; `version` is the protocol's (5, 9 or 10)."""

    name: str
    address: str
    port: int
    place: Place
    transport: str = "udp"
    vrf: str = ""
    version: int = 10


@dataclass
class Exporter:
    """An exporting process. `mode` is parallel, loadBalancing or fallback; `source` is the sender's address, if known."""

    name: str
    destinations: list[Destination]
    place: Place
    mode: str = "parallel"
    source: str = ""


@dataclass
class Aggregation:
    """An intermediate aggregation (RFC 7015) of a collecting process. `key` entries are (element, prefix length or None)."""

    name: str
    key: list[tuple[str, int | None]]
    exporters: list[str]
    place: Place
    match: Match = field(default_factory=dict)


@dataclass
class Listener:
    """A collecting process. `listens` are (address or `*`, port, transport); `accepts` are the sender addresses that are
    allowed (None: any); `local_exporters` are exporters of this same device whose records come in without a network."""

    name: str
    listens: list[tuple[str, int, str]]
    place: Place
    accepts: list[str] | None = None
    forwards: list[str] = field(default_factory=list)
    aggregations: list[Aggregation] = field(default_factory=list)
    local_exporters: list[str] = field(default_factory=list)


@dataclass
class Device:
    """Everything that was read of one device, in the order of its configuration."""

    name: str
    kind: str
    files: list[str]
    interfaces: list[Interface] = field(default_factory=list)
    points: list[Point] = field(default_factory=list)
    caches: list[Cache] = field(default_factory=list)
    exporters: list[Exporter] = field(default_factory=list)
    listeners: list[Listener] = field(default_factory=list)
    findings: list[Finding] = field(default_factory=list)
    hostname: str = ""
    # Keys that a collector stores by, as a proposal for the report: one list of (element, length) a plugin.
    proposed_keys: list[tuple[str, list[tuple[str, int | None]], Place]] = field(default_factory=list)


@dataclass(frozen=True)
class Crossing:
    """A packet crosses an interface; `direction` is INGRESS or EGRESS."""

    device: str
    interface: str
    direction: Direction


@dataclass
class TrafficClass:
    """A class of a traffic document. `region` maps an axis to `VALUE`, `LOW-HIGH` or, for addresses, `PREFIX/LENGTH`."""

    name: str
    region: dict[str, str]
    paths: list[tuple[Crossing, ...]]
    exempt: bool = False
    place: Place = Place("")


class Unusable(Exception):
    """Input of which nothing can be made: a place, why, and what to do."""

    def __init__(self, place: Place, says: str, todo: str = "") -> None:
        super().__init__(says)
        self.finding = Finding(Grade.WRONG, place, says, todo)


class Failed(Unusable):
    """A file that cannot be read or written, or a program that cannot be run: a place, why, and what to do."""

    def __init__(self, place: Place, says: str, todo: str = "") -> None:
        super().__init__(place, says, todo)
        self.finding = replace(self.finding, is_failure=True)
