"""What a network document means for its records, read for the judge of parts: apart from the JSON loading it shares nothing with the cutter.

Devices and processes are known by their names, so that a part and the whole can be compared. Two caches mean the same if their records
have the same layout and are sent alike; two collecting processes, if they forward and aggregate alike.
"""
from __future__ import annotations

import ipaddress
from dataclasses import dataclass, field
from typing import Collection, Iterator, Mapping, NamedTuple

from once_tools.parts.loading import Value

ADDRESSES = {8: "sourceIPv4Address", 12: "destinationIPv4Address", 27: "sourceIPv6Address", 28: "destinationIPv6Address"}
NUMBERS = {4: "protocolIdentifier", 7: "sourceTransportPort", 11: "destinationTransportPort", 5: "ipClassOfService", 60: "ipVersion"}
PREFIXES = {44: "sourceIPv4Prefix", 45: "destinationIPv4Prefix", 170: "sourceIPv6Prefix", 169: "destinationIPv6Prefix"}
NAMES = {**ADDRESSES, **NUMBERS, **PREFIXES}
WIDTHS = {"sourceIPv4Address": 32, "destinationIPv4Address": 32, "sourceIPv6Address": 128, "destinationIPv6Address": 128, "protocolIdentifier": 8,
          "sourceTransportPort": 16, "destinationTransportPort": 16, "ipClassOfService": 8, "ipVersion": 8}
CACHES = ("immediateCache", "timeoutCache", "naturalCache", "permanentCache")
MODES = {f"{prefix}{mode}": mode == "parallel" for prefix in ("", "ietf-ipfix-psamp:") for mode in ("parallel", "loadBalancing", "fallback")}

# A device and one of its collecting processes.
Process = tuple[str, str]
# The values of a packet on each axis that is restricted, low and high.
Region = Mapping[str, tuple[int, int]]
# The axes of a key, each with its leading bits.
Layout = tuple[tuple[str, int], ...]


class Sending(NamedTuple):
    """Where an exporting process sends records: to all of these or to one of them. None is a destination without a link."""

    is_parallel: bool
    leads: tuple[Process | None, ...]


class Taking(NamedTuple):
    """An aggregation: the matches, the key, and where its records go."""

    matches: tuple[tuple[str, int, int], ...]
    layout: Layout
    sendings: tuple[Sending, ...]


class Handling(NamedTuple):
    """What a collecting process does with records."""

    sendings: tuple[Sending, ...]
    takings: tuple[Taking, ...]


@dataclass(frozen=True)
class Metering:
    """A selection process with a cache, as a packet meets it. Its names are not compared."""

    low_high: tuple[tuple[str, int, int], ...] | None
    layout: Layout
    sendings: tuple[Sending, ...]
    device: str = field(compare=False)
    names: str = field(compare=False)


def element(entry: Value) -> str:
    """Returns the element that an entry names; an empty name if packets are not distinguished by it."""
    enterprise, name = entry.optional("ieEnterpriseNumber"), entry.optional("ieName")
    if enterprise is not None and enterprise.value != 0:
        return ""
    if name is None:
        return NAMES.get(entry.number_at("ieId"), "")
    return name.text() if name.text() in NAMES.values() else ""


def axis_and_bits(name: str, length: int | None) -> tuple[str, int]:
    """Returns the axis of an element, with its leading bits."""
    axis = name.replace("Prefix", "Address")
    return axis, WIDTHS[axis] if length is None else length


def address(axis: str, text: str) -> int:
    """Returns an address as a number. Raises ValueError."""
    if WIDTHS[axis] == 32:
        return int(ipaddress.IPv4Address(text))
    if "%" in text:
        raise ValueError(f"'{text}' has a zone")
    return int(ipaddress.IPv6Address(text))


def single(axis: str, text: str) -> int:
    """Returns a value of an axis. Raises ValueError."""
    if axis in ADDRESSES.values():
        return address(axis, text)
    if not (text.isascii() and text.isdigit() and str(int(text)) == text and int(text) < 2 ** WIDTHS[axis]):
        raise ValueError(f"'{text}' is no number of {WIDTHS[axis]} bits")
    return int(text)


def prefix(axis: str, text: str) -> tuple[int, int]:
    """Returns the first and last address of ADDRESS/LENGTH. Raises ValueError."""
    first, _, length = text.partition("/")
    if axis not in ADDRESSES.values() or not (length.isascii() and length.isdigit() and 1 <= int(length) <= WIDTHS[axis]):
        raise ValueError(f"'{text}' is no prefix")
    free = WIDTHS[axis] - int(length)
    low = address(axis, first) >> free << free
    return low, low + 2 ** free - 1


def filter_of(entry: Value) -> tuple[str, int, int]:
    """Returns the axis of a filterMatch or match, and the lowest and highest value that passes."""
    name, text = element(entry), entry.text_at("value")
    if not name:
        raise entry.wrong("filters by an element that packets are not distinguished by", "name an element of docs/FORMATS.md")
    axis = name.replace("Prefix", "Address")
    try:
        low, high = prefix(axis, text) if name != axis else (single(axis, text),) * 2
    except ValueError as error:
        raise entry.wrong(f"has no value of {name}: {error}", "correct it: see docs/FORMATS.md, A device") from error
    return axis, low, high


def interval(axis: str, text: str) -> tuple[int, int]:
    """Returns what VALUE, LOW-HIGH or ADDRESS/LENGTH says of an axis. Raises ValueError."""
    if "/" in text:
        return prefix(axis, text)
    first, hyphen, last = text.partition("-")
    low = single(axis, first)
    high = single(axis, last) if hyphen else low
    if low > high:
        raise ValueError(f"'{text}' ends before it begins")
    return low, high


def region_of_class(entry: Value) -> Region:
    """Returns the region of a class; an axis with all its values is left out."""
    found: dict[str, tuple[int, int]] = {}
    region = entry.optional("region")
    for axis, value in region.each() if region is not None else ():
        if axis not in WIDTHS:
            raise value.wrong("is no axis", "name an element of docs/FORMATS.md, The nine axes")
        try:
            low_high = interval(axis, value.text())
        except ValueError as error:
            raise value.wrong(f"is no set of values: {error}", "write VALUE, LOW-HIGH or ADDRESS/LENGTH") from error
        if low_high != (0, 2 ** WIDTHS[axis] - 1):
            found[axis] = low_high
    return found


def key(fields: list[Value]) -> Layout:
    """Returns the layout of a key, by axis."""
    found = []
    for one in fields:
        name = element(one)
        if not name:
            raise one.wrong("is no axis", "name an element of docs/FORMATS.md")
        found.append(axis_and_bits(name, one.number_at("prefixLength") if name in PREFIXES.values() else None))
    return tuple(sorted(found))


class Cache(NamedTuple):
    layout: Layout
    exporters: tuple[str, ...]


class Exporter(NamedTuple):
    is_parallel: bool
    destinations: tuple[str, ...]


class Aggregation(NamedTuple):
    matches: tuple[tuple[str, int, int], ...]
    layout: Layout
    exporters: tuple[str, ...]


class Collector(NamedTuple):
    exporters: tuple[str, ...]
    aggregations: tuple[Aggregation, ...]


class Point(NamedTuple):
    name: str
    interfaces: frozenset[str]
    direction: str
    selections: tuple[str, ...]


class Selection(NamedTuple):
    low_high: tuple[tuple[str, int, int], ...] | None
    cache: str | None


def selection_of(entry: Value) -> Selection:
    """Returns a selection process: on each axis the greatest low and the least high of its filters, None if they contradict."""
    found: dict[str, tuple[int, int]] = {}
    for selector in entry.member("selector").entries():
        if "filterMatch" in selector.members():
            axis, low, high = filter_of(selector.member("filterMatch"))
            before = found.get(axis, (low, high))
            found[axis] = max(low, before[0]), min(high, before[1])
        elif "selectAll" not in selector.members():
            raise selector.wrong("neither selects all packets nor filters them, and no total over a sample is exact", "see `once explain 108`")
    empty = any(low > high for low, high in found.values())
    return Selection(None if empty else tuple(sorted((axis, *it) for axis, it in found.items())), entry.text_at("cache") if "cache" in entry.members() else None)


def cache_of(entry: Value) -> Cache:
    """Returns a cache."""
    kind = next((one for one in CACHES if one in entry.members()), None)
    if kind is None:
        raise entry.wrong("is of no kind", f"give it one of {', '.join(CACHES)}")
    fields = entry.member(kind).member("cacheLayout").member("cacheField").entries()
    names = {element(one) for one in fields if kind == "immediateCache" or "isFlowKey" in one.members()}
    return Cache(tuple(sorted(axis_and_bits(one, None) for one in names if one in WIDTHS)), entry.texts("exportingProcess"))


def exporter_of(entry: Value) -> Exporter:
    """Returns an exporting process."""
    mode = entry.optional("exportMode")
    if mode is not None and mode.text() not in MODES:
        raise mode.wrong(f"is no export mode: '{mode.text()}'", "write parallel, loadBalancing or fallback")
    entry.named("destination")
    return Exporter(mode is None or MODES[mode.text()], tuple(one.text_at("name") for one in entry.listed("destination")))


def collector_of(entry: Value) -> Collector:
    """Returns a collecting process."""
    entry.named("once-audit:aggregation")
    return Collector(entry.texts("exportingProcess"), tuple(
        Aggregation(tuple(filter_of(it) for it in one.listed("match")), key(one.listed("key")), one.texts("exportingProcess"))
        for one in entry.listed("once-audit:aggregation")))


def point_of(entry: Value) -> Point:
    """Returns an observation point."""
    direction = entry.text_at("direction") if "direction" in entry.members() else "both"
    if direction not in ("ingress", "egress", "both"):
        raise entry.member("direction").wrong(f"is no direction: '{direction}'", "write ingress, egress or both")
    return Point(entry.text_at("name"), frozenset(entry.texts("ifName")), direction, entry.texts("selectionProcess"))


class DeviceMeaning:
    """What the configuration of a device says, by name."""

    def __init__(self, entry: Value) -> None:
        ipfix = entry.member("config").member("ietf-ipfix-psamp:ipfix")
        self.entry = entry
        self.points = [point_of(one) for one in ipfix.named("observationPoint").values()]
        self.selections = {name: selection_of(one) for name, one in ipfix.named("selectionProcess").items()}
        self.caches = {name: cache_of(one) for name, one in ipfix.named("cache").items()}
        self.exporters = {name: exporter_of(one) for name, one in ipfix.named("exportingProcess").items()}
        self.collectors = {name: collector_of(one) for name, one in ipfix.named("collectingProcess").items()}
        self.check_names()

    def check_names(self) -> None:
        """Raises `Unusable` if an entry names one that is not there."""
        kinds: tuple[tuple[str, Collection[str], list[str]], ...] = (
            ("selection process", self.selections, [it for one in self.points for it in one.selections]),
            ("cache", self.caches, [one.cache for one in self.selections.values() if one.cache is not None]),
            ("exporting process", self.exporters, [it for one in self.holders() for it in one.exporters]))
        for kind, known, names in kinds:
            missing = next((name for name in names if name not in known), None)
            if missing is not None:
                raise self.entry.wrong(f"has no {kind} '{missing}', which is named in it", "correct the name")

    def holders(self) -> Iterator[Cache | Aggregation | Collector]:
        """Yields what names exporting processes."""
        yield from self.caches.values()
        for one in self.collectors.values():
            yield one
            yield from one.aggregations


class NetworkMeaning:
    """What a network document says. Devices that are equal to one of a network that is `known` are not read again."""

    def __init__(self, root: Value, known: NetworkMeaning | None = None) -> None:
        self.root = root
        self.devices = {name: self.device(name, entry, known) for name, entry in root.named("devices").items()}
        self.links: dict[tuple[str, str, str], Process] = {}
        for link in root.member("links").entries():
            self.add_link(link)
        report = root.member("report")
        self.report: Process = report.text_at("device"), report.text_at("collectingProcess")
        self.layout = key(report.member("key").entries())
        if not self.has(self.report):
            raise report.wrong(f"names no collecting process: '{self.report[1]}' of device '{self.report[0]}'", "correct the names")

    @staticmethod
    def device(name: str, entry: Value, known: NetworkMeaning | None) -> DeviceMeaning:
        """Returns what a device's configuration says."""
        other = known.devices.get(name) if known is not None else None
        return other if other is not None and other.entry.value == entry.value else DeviceMeaning(entry)

    def add_link(self, link: Value) -> None:
        """Adds a link; raises `Unusable` if an end of it is missing, or its destination has one already."""
        source = link.text_at("device"), link.text_at("exportingProcess"), link.text_at("destination")
        target = link.text_at("toDevice"), link.text_at("toProcess")
        device = self.devices.get(source[0])
        exporter = device.exporters.get(source[1]) if device is not None else None
        if exporter is None or source[2] not in exporter.destinations:
            raise link.wrong(f"comes from no destination: '{source[2]}' of exporting process '{source[1]}' of device '{source[0]}'", "correct the names")
        if not self.has(target):
            raise link.wrong(f"leads to no collecting process: '{target[1]}' of device '{target[0]}'", "correct the names")
        if source in self.links:
            raise link.wrong("is a second link of one destination", "remove one of them")
        self.links[source] = target

    def has(self, process: Process) -> bool:
        """Returns whether the network has a collecting process."""
        return process[0] in self.devices and process[1] in self.devices[process[0]].collectors

    def sendings(self, device: str, names: tuple[str, ...]) -> tuple[Sending, ...]:
        """Returns where exporting processes of a device send."""
        exporters = [(name, self.devices[device].exporters[name]) for name in names]
        return tuple(Sending(one.is_parallel, tuple(self.links.get((device, name, it)) for it in one.destinations)) for name, one in exporters)

    def processes(self) -> list[Process]:
        """Returns the collecting processes."""
        return [(name, process) for name, device in self.devices.items() for process in device.collectors]

    def handling(self, process: Process) -> Handling:
        """Returns what a collecting process does with records."""
        found = self.devices[process[0]].collectors[process[1]]
        takings = tuple(Taking(one.matches, one.layout, self.sendings(process[0], one.exporters)) for one in found.aggregations)
        return Handling(self.sendings(process[0], found.exporters), takings)

    def meterings(self, name: str, interface: str, direction: str) -> list[Metering]:
        """Returns the selection processes with caches that a packet meets at a crossing, in order."""
        device = self.devices[name]
        found = []
        for point in device.points:
            if interface in point.interfaces and point.direction in ("both", direction):
                for selection in point.selections:
                    low_high, cache = device.selections[selection]
                    if cache is not None:
                        held = device.caches[cache]
                        names = f"observation point '{point.name}', selection process '{selection}'"
                        found.append(Metering(low_high, held.layout, self.sendings(name, held.exporters), name, names))
        return found

    def check_order(self) -> None:
        """Raises `Unusable` if records can go round in a circle."""
        feeds = {one: {lead for it in self.all_sendings(one) for lead in it.leads if lead is not None} for one in self.processes()}
        fed = {one: 0 for one in feeds}
        for leads in feeds.values():
            for one in leads:
                fed[one] += 1
        waiting = [one for one, count in fed.items() if not count]
        while waiting:
            for one in feeds[waiting.pop()]:
                fed[one] -= 1
                if not fed[one]:
                    waiting.append(one)
        circle = next((one for one, count in fed.items() if count), None)
        if circle is not None:
            raise self.root.member("links").wrong(f"lead in a circle, to which collecting process '{circle[1]}' of device '{circle[0]}' belongs or leads", "see `once explain 204`")

    def all_sendings(self, process: Process) -> list[Sending]:
        """Returns all sendings of a collecting process and its aggregations."""
        found = self.handling(process)
        return [*found.sendings, *(one for it in found.takings for one in it.sendings)]
