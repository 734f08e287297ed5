"""A plain walk over the documents of a network and its traffic, for tests: what sees the packets of a path, where their records go, and
how often they are counted.

It is written from docs/FORMATS.md and docs/REFUSALS.md and shares nothing with the program. Everything is numbered from 1 in the order
of the documents, as there. A region has a least and a greatest value on each of the nine axes.
"""
import ipaddress
import re
from dataclasses import dataclass
from typing import Any, Dict, Iterable, Iterator, List, Optional, Sequence, Tuple

Object = Dict[str, Any]
Range = Tuple[int, int]
Region = Tuple[Range, ...]
# Of each axis that a key has, how many leading bits.
Layout = Dict[int, int]
# An exporting process, one of its destinations, and the number of the link from there if it has one.
Way = Tuple[str, str, Optional[int]]
# The number of a device, and that of one of its collecting processes.
Process = Tuple[int, int]
MODULE = "ietf-ipfix-psamp:ipfix"


@dataclass(frozen=True)
class Axis:
    """One of the nine fields of a packet: its element, its word in certificates, its bits, and the element of its prefixes."""

    element: str
    number: int
    word: str
    bits: int
    prefix: str = ""
    prefix_number: int = 0

    @property
    def top(self) -> int:
        return (1 << self.bits) - 1


AXES = (
    Axis("sourceIPv4Address", 8, "source", 32, "sourceIPv4Prefix", 44),
    Axis("destinationIPv4Address", 12, "destination", 32, "destinationIPv4Prefix", 45),
    Axis("protocolIdentifier", 4, "protocol", 8),
    Axis("sourceTransportPort", 7, "sport", 16),
    Axis("destinationTransportPort", 11, "dport", 16),
    Axis("ipClassOfService", 5, "tos", 8),
    Axis("ipVersion", 60, "version", 8),
    Axis("sourceIPv6Address", 27, "source6", 128, "sourceIPv6Prefix", 170),
    Axis("destinationIPv6Address", 28, "destination6", 128, "destinationIPv6Prefix", 169),
)
WHOLE: Region = tuple((0, axis.top) for axis in AXES)
# The axes of elements, by name and by number, and those of words in certificates.
PLACES: Dict[object, int] = {
    name: at for at, axis in enumerate(AXES) for name in (axis.element, axis.prefix, axis.number, axis.prefix_number) if name}
WORDS = {axis.word: at for at, axis in enumerate(AXES)}


def value_of(axis: Axis, text: str) -> int:
    return int(ipaddress.ip_address(text)) if axis.prefix else int(text)


def shown(at: int, value: int) -> str:
    """Returns a value of an axis as the program writes it."""
    if not AXES[at].prefix:
        return str(value)
    if AXES[at].bits == 32:
        return str(ipaddress.IPv4Address(value))
    return ":".join(f"{value >> shift & 0xFFFF:x}" for shift in range(112, -1, -16))


def range_of(axis: Axis, text: str) -> Tuple[Range, int]:
    """Returns the values that a text means, and how many leading bits they have in common by its form: all, unless it has a length."""
    if "/" in text:
        address, length = text.split("/", 1)
        free = axis.bits - int(length)
        low = value_of(axis, address) >> free << free
        return (low, low + (1 << free) - 1), int(length)
    first, _, last = text.partition("-")
    return (value_of(axis, first), value_of(axis, last or first)), axis.bits


def place_of(field: Object) -> Optional[int]:
    """Returns the axis that a field is on, if it is on one."""
    return PLACES.get(field.get("ieName") or field.get("ieId"))


def axis_of(test: Object) -> int:
    """Returns the axis that a filter, a match or a key field is on."""
    return PLACES[test.get("ieName") or test.get("ieId")]


def region_of(named: Object) -> Region:
    """Returns the region of a class."""
    return tuple(range_of(axis, str(named[axis.element]))[0] if axis.element in named else whole for axis, whole in zip(AXES, WHOLE))


def with_range(region: Region, at: int, values: Range) -> Region:
    return (*region[:at], values, *region[at + 1:])


def narrowed(tests: Iterable[Object]) -> Optional[Region]:
    """Returns the packets that pass all of these filters or matches, or None if none can."""
    region = WHOLE
    for test in tests:
        at = axis_of(test)
        (low, high), _ = range_of(AXES[at], test["value"])
        region = with_range(region, at, (max(low, region[at][0]), min(high, region[at][1])))
    return region if all(low <= high for low, high in region) else None


def overlap(region: Region, other: Optional[Region]) -> str:
    """Returns how many packets of a region are in another one: all, some or none."""
    if other is None or any(high < low2 or high2 < low for (low, high), (low2, high2) in zip(region, other)):
        return "none"
    return "all" if all(low2 <= low and high <= high2 for (low, high), (low2, high2) in zip(region, other)) else "some"


def bound_of(region: Region, other: Region) -> Tuple[int, int]:
    """Returns the first axis on which another region cuts a region, and the value there at which the upper part begins."""
    for at, ((low, high), (low2, high2)) in enumerate(zip(region, other)):
        if low < low2 <= high:
            return at, low2
        if low <= high2 < high:
            return at, high2 + 1
    raise ValueError("nothing is cut")


def key_layout(fields: Sequence[Object]) -> Layout:
    """Returns the layout of a key of an aggregation or a report."""
    return {axis_of(field): field.get("prefixLength") or AXES[axis_of(field)].bits for field in fields}


def cache_layout(cache: Object) -> Layout:
    """Returns the layout of a cache: its flow keys, of an immediate cache all its fields that are axes."""
    kind = next(it for it in ("immediateCache", "timeoutCache", "naturalCache", "permanentCache") if it in cache)
    fields = cache[kind]["cacheLayout"]["cacheField"]
    keys = [field for field in fields if place_of(field) is not None and (kind == "immediateCache" or "isFlowKey" in field)]
    return {axis_of(field): AXES[axis_of(field)].bits for field in keys}


def lacks(layout: Layout, needed: Layout) -> List[int]:
    """Returns the axes of which a key has fewer bits than are needed, in the order of the axes."""
    return [at for at in sorted(needed) if layout.get(at, 0) < needed[at]]


@dataclass(frozen=True)
class Holder:
    """A cache, or an aggregation of a collecting process; of a cache `process` is 0."""

    device: int
    process: int
    number: int

    @property
    def kind(self) -> str:
        return "aggregation" if self.process else "cache"


@dataclass(frozen=True)
class Occurrence:
    """A place where packets of a path may be metered: by a selection process of an observation point at a crossing. `region` has the
    packets that it selects, None if there are none."""

    crossing: int
    point: int
    process: int
    device: int
    point_name: str
    process_name: str
    cache: Optional[str]
    region: Optional[Region]

    @property
    def numbers(self) -> Tuple[int, int, int]:
        return self.crossing, self.point, self.process


class Network:
    """A network's document, whose entries are found by number."""

    def __init__(self, document: Object) -> None:
        self.devices: List[Object] = document["devices"]
        self.links: List[Object] = document["links"]
        self.numbers = {device["name"]: number for number, device in enumerate(self.devices, 1)}
        self.from_places = {(it["device"], it["exportingProcess"], it["destination"]): number for number, it in enumerate(self.links, 1)}
        report = document["report"]
        self.report = self.process_named(report["device"], report["collectingProcess"])
        self.report_layout = key_layout(report["key"])

    def name(self, device: int) -> str:
        return str(self.devices[device - 1]["name"])

    def entries(self, device: int, member: str) -> List[Object]:
        found: List[Object] = self.devices[device - 1]["config"][MODULE].get(member, [])
        return found

    def named(self, device: int, member: str, name: str) -> Tuple[int, Object]:
        """Returns the number and the entry of this name in a list of a device."""
        return next((number, it) for number, it in enumerate(self.entries(device, member), 1) if it["name"] == name)

    def process_named(self, device: str, name: str) -> Process:
        return self.numbers[device], self.named(self.numbers[device], "collectingProcess", name)[0]

    def end_of(self, link: int) -> Process:
        """Returns the collecting process to which a link leads."""
        return self.process_named(self.links[link - 1]["toDevice"], self.links[link - 1]["toProcess"])

    def process(self, process: Process) -> Object:
        return self.entries(process[0], "collectingProcess")[process[1] - 1]

    def holder(self, holder: Holder) -> Object:
        if holder.process:
            aggregations: List[Object] = self.process((holder.device, holder.process))["once-audit:aggregation"]
            return aggregations[holder.number - 1]
        return self.entries(holder.device, "cache")[holder.number - 1]

    def cache(self, device: int, name: str) -> Holder:
        return Holder(device, 0, self.named(device, "cache", name)[0])

    def aggregations(self, process: Process) -> List[Holder]:
        return [Holder(*process, number) for number, _ in enumerate(self.process(process).get("once-audit:aggregation", []), 1)]

    def layout(self, holder: Holder) -> Layout:
        entry = self.holder(holder)
        return key_layout(entry.get("key", [])) if holder.process else cache_layout(entry)

    def chooses(self, device: int, exporter: str) -> bool:
        """Returns whether an exporting process sends a record to one of its destinations alone."""
        mode = str(self.named(device, "exportingProcess", exporter)[1].get("exportMode", "parallel"))
        return mode.split(":")[-1] != "parallel"

    def ways(self, device: int, exporter: str) -> List[Way]:
        """Returns the destinations of an exporting process, each with its link."""
        names = [it["name"] for it in self.named(device, "exportingProcess", exporter)[1]["destination"]]
        return [(exporter, it, self.from_places.get((self.name(device), exporter, it))) for it in names]

    def match(self, aggregation: Holder) -> Tuple[Layout, Optional[Region]]:
        """Returns what an aggregation's matches need of a key, and the packets for which all of them hold."""
        needed: Layout = {}
        matches = self.holder(aggregation).get("match", [])
        for test in matches:
            at = axis_of(test)
            needed[at] = max(needed.get(at, 0), range_of(AXES[at], test["value"])[1])
        return needed, narrowed(matches)

    def reads(self, aggregation: Holder, layout: Layout) -> bool:
        """Returns whether an aggregation can read its key and its matches from records of a layout."""
        return not lacks(layout, self.layout(aggregation)) and not lacks(layout, self.match(aggregation)[0])

    def occurrences(self, path: Sequence[Object]) -> Iterator[Occurrence]:
        """Yields the selection processes that packets meet on a path, in order."""
        for number, crossing in enumerate(path, 1):
            device = self.numbers[crossing["device"]]
            for at, point in enumerate(self.entries(device, "observationPoint"), 1):
                if sees(point, crossing):
                    yield from self.occurrences_at(number, device, at, point)

    def occurrences_at(self, crossing: int, device: int, at: int, point: Object) -> Iterator[Occurrence]:
        for number, name in enumerate(point.get("selectionProcess", []), 1):
            process = self.named(device, "selectionProcess", name)[1]
            region = narrowed(it["filterMatch"] for it in process["selector"] if "filterMatch" in it)
            yield Occurrence(crossing, at, number, device, point["name"], name, process.get("cache"), region)


def sees(point: Object, crossing: Object) -> bool:
    """Returns whether an observation point sees the packets of a crossing of its device."""
    return crossing["interface"] in point["ifName"] and point.get("direction", "both") in ("both", crossing["direction"])


# How often packets of a region are counted: never, once, more than once, or as a choice of a destination decides; `unassigned` if a
# record of them can reach the report without its key, `cut` if a filter or a match that they reach holds for some of them only.
NEVER, ONCE, MORE, DIFFERING, UNASSIGNED, CUT = "never", "once", "more", "differing", "unassigned", "cut"
COUNTS = (NEVER, ONCE, MORE)


def together(fates: Sequence[str]) -> str:
    """Returns the fate of packets to which all of these happen."""
    for fate in (CUT, UNASSIGNED, DIFFERING):
        if fate in fates:
            return fate
    return COUNTS[min(2, sum(COUNTS.index(fate) for fate in fates))]


def one_of(fates: Sequence[str]) -> str:
    """Returns the fate of packets to which one of these happens."""
    for fate in (CUT, UNASSIGNED):
        if fate in fates:
            return fate
    return fates[0] if len(set(fates)) == 1 else DIFFERING


class Walk:
    """The way of records of the packets of a region, which all take the same way unless something cuts the region."""

    def __init__(self, network: Network, region: Region) -> None:
        self.network, self.region = network, region
        # The bounds of what cuts the region, and what was reached: the collecting processes with the holders whose records they got.
        self.cuts: List[Tuple[int, int]] = []
        self.arrivals: List[Tuple[Process, Holder]] = []

    def sent(self, device: int, exporters: Sequence[str], holder: Holder) -> str:
        """Returns the fate of a holder's record that exporting processes of a device send."""
        fates = []
        for exporter in exporters:
            ways = [self.carried(link, holder) for _, _, link in self.network.ways(device, exporter)]
            fates.append(one_of(ways) if self.network.chooses(device, exporter) else together(ways))
        return together(fates)

    def left(self, holder: Holder) -> str:
        return self.sent(holder.device, self.network.holder(holder).get("exportingProcess", []), holder)

    def carried(self, link: Optional[int], holder: Holder) -> str:
        """Returns the fate of a holder's record on a link, or without one."""
        if link is None:
            return NEVER
        process = self.network.end_of(link)
        self.arrivals.append((process, holder))
        fates = [self.sent(process[0], self.network.process(process).get("exportingProcess", []), holder)]
        fates += [self.taken(aggregation, holder) for aggregation in self.network.aggregations(process)]
        if process == self.network.report:
            fates.append(UNASSIGNED if lacks(self.network.layout(holder), self.network.report_layout) else ONCE)
        return together(fates)

    def taken(self, aggregation: Holder, holder: Holder) -> str:
        """Returns the fate of a holder's record that reaches an aggregation."""
        if not self.network.reads(aggregation, self.network.layout(holder)):
            return NEVER
        region = self.network.match(aggregation)[1]
        how = overlap(self.region, region)
        if how == "some" and region is not None:
            self.cuts.append(bound_of(self.region, region))
        if how == "none":
            return NEVER
        fate = self.left(aggregation)
        return CUT if how == "some" else fate

    def metered(self, occurrence: Occurrence) -> str:
        """Returns the fate of the packets by what one selection process makes of them."""
        how = overlap(self.region, occurrence.region)
        if occurrence.cache is None or how == "none":
            return NEVER
        if how == "some" and occurrence.region is not None:
            self.cuts.append(bound_of(self.region, occurrence.region))
        fate = self.left(self.network.cache(occurrence.device, occurrence.cache))
        return CUT if how == "some" else fate

    def path(self, path: Sequence[Object]) -> Tuple[str, List[Occurrence]]:
        """Returns the fate of the packets on a path, and the selection processes of whose records at least one is counted."""
        fates = [(self.metered(it), it) for it in self.network.occurrences(path)]
        return together([fate for fate, _ in fates]), [it for fate, it in fates if fate != NEVER]


# ---- certificates

FORMS = {
    "class": re.compile(r"class (0|[1-9]\d*) path (0|[1-9]\d*)"),
    "L": re.compile(r"L (0|[1-9]\d*) (0|[1-9]\d*) (0|[1-9]\d*)"),
    "N": re.compile(r"N"),
    "S": re.compile(r"S (\w+) (0|[1-9]\d*)"),
    "end": re.compile(r"end"),
}
DEEPEST = 511
NUMBERS = {CUT: 406, UNASSIGNED: 413, DIFFERING: 409, MORE: 408}


@dataclass(frozen=True)
class Refused:
    """Why a certificate is refused: the number, the line, what is due there, and of a tree its region and how many splits it is below."""

    number: int
    line: int
    due: str
    target: Optional[Tuple[int, int]] = None
    region: Optional[Region] = None
    depth: int = 0


def form_of(line: str) -> Optional[Tuple[str, List[str]]]:
    """Returns what kind of line it is, and its words; None if it has no form of a certificate's lines."""
    for kind, form in FORMS.items():
        found = form.fullmatch(line)
        if found:
            words = list(found.groups())
            if kind == "S":
                return (kind, words) if words[0] in WORDS and int(words[1]) <= AXES[WORDS[words[0]]].top else None
            return (kind, words) if all(int(it) < 1 << 64 for it in words) else None
    return None


class Certificate:
    """A certificate that is read line by line over a network and its traffic."""

    def __init__(self, network: Network, traffic: Object, text: str) -> None:
        self.network, self.classes = network, traffic["classes"]
        self.lines, self.at, self.has_none = text.split("\n"), 0, False
        # The number of whole lines: a text that ends inside a line has one more, which is not.
        self.whole = len(self.lines) - 1
        if not self.lines[-1]:
            self.lines.pop()

    def targets(self) -> List[Tuple[int, int]]:
        return [(c, p) for c, one in enumerate(self.classes, 1) for p, _ in enumerate(one["paths"], 1)]

    def refusal(self) -> Optional[Refused]:
        """Returns the first refusal, or None if the certificate is right."""
        if not self.whole:
            return Refused(405, 1, "header")
        if self.lines[0] not in ("once-certificate 1", "once-certificate 2"):
            return Refused(401, 1, "header")
        self.has_none, self.at = self.lines[0].endswith("2"), 1
        for target in self.targets():
            found = self.expected("class", [str(it) for it in target], Refused(403, 0, "class", target)) or self.tree(target)
            if found:
                return found
        found = self.expected("end", [], Refused(403, 0, "end"))
        if not found and self.at < len(self.lines):
            return Refused(411 if self.at < self.whole else 405, self.at + 1, "nothing")
        return found

    def read(self, otherwise: Refused) -> Tuple[Optional[Tuple[str, List[str]]], Optional[Refused]]:
        """Reads a line: returns its form, or why it is refused, where `otherwise` says what is due there."""
        due = (self.at + 1, otherwise.due, otherwise.target, otherwise.region, otherwise.depth)
        if self.at >= self.whole:
            return None, Refused(405, *due)
        form, self.at = form_of(self.lines[self.at]), self.at + 1
        return form, None if form else Refused(402, *due)

    def expected(self, kind: str, words: List[str], otherwise: Refused) -> Optional[Refused]:
        """Reads a line that has to be of this kind with these words."""
        form, refused = self.read(otherwise)
        if refused or form == (kind, words):
            return refused
        return Refused(403, self.at, otherwise.due, otherwise.target)

    def tree(self, target: Tuple[int, int]) -> Optional[Refused]:
        """Reads the tree of a path of a class."""
        one = self.classes[target[0] - 1]
        waiting: List[Tuple[Region, int]] = [(region_of(one.get("region", {})), 0)]
        while waiting:
            region, depth = waiting.pop()
            due = ("tree", target, region, depth)
            form, refused = self.read(Refused(0, 0, *due))
            if refused or form is None:
                return refused
            number = self.split(form, region, depth, waiting) if form[0] == "S" else self.leaf(form, one, target, region)
            if number:
                return Refused(number, self.at, *due)
        return None

    def split(self, form: Tuple[str, List[str]], region: Region, depth: int, waiting: List[Tuple[Region, int]]) -> int:
        """Adds both parts of a split region to those that wait; returns the number of its refusal, or 0."""
        at, value = WORDS[form[1][0]], int(form[1][1])
        low, high = region[at]
        if depth > DEEPEST:
            return 412
        if not low < value <= high:
            return 404
        waiting += [(with_range(region, at, (value, high)), depth + 1), (with_range(region, at, (low, value - 1)), depth + 1)]
        return 0

    def leaf(self, form: Tuple[str, List[str]], one: Object, target: Tuple[int, int], region: Region) -> int:
        """Returns the number of a leaf's refusal, or 0."""
        kind, words = form
        exempt = "exempt" in one
        if kind != ("N" if exempt else "L") or (exempt and not self.has_none):
            return 403
        fate, counting = Walk(self.network, region).path(one["paths"][target[1] - 1])
        if fate in NUMBERS:
            return NUMBERS[fate]
        if exempt:
            return 415 if fate == ONCE else 0
        if fate == NEVER:
            return 407
        return 0 if counting[0].numbers == tuple(map(int, words)) else 410


def certificate_of(network: Network, traffic: Object) -> List[str]:
    """Returns the lines of a certificate of which each leaf that can be right is, and which is split wherever something cuts."""
    version = 2 if any("exempt" in one for one in traffic["classes"]) else 1
    lines = [f"once-certificate {version}"]
    for number, one in enumerate(traffic["classes"], 1):
        for at, path in enumerate(one["paths"], 1):
            lines.append(f"class {number} path {at}")
            lines += tree_of(network, path, region_of(one.get("region", {})), "exempt" in one)
    return [*lines, "end"]


def tree_of(network: Network, path: Sequence[Object], region: Region, exempt: bool) -> Iterator[str]:
    """Yields the lines of the tree of a region on a path."""
    walk = Walk(network, region)
    fate, counting = walk.path(path)
    if fate == CUT:
        at, value = walk.cuts[0]
        yield f"S {AXES[at].word} {value}"
        yield from tree_of(network, path, with_range(region, at, (region[at][0], value - 1)), exempt)
        yield from tree_of(network, path, with_range(region, at, (value, region[at][1])), exempt)
    elif exempt:
        yield "N"
    else:
        leaf = counting[0].numbers if counting else (1, 1, 1)
        yield f"L {leaf[0]} {leaf[1]} {leaf[2]}"
