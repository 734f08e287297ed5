"""The whole network and its traffic, read for cutting: what each device is joined to, what it adds to a part, and what classes touch."""
from __future__ import annotations

from dataclasses import dataclass, field

from once_tools.boxes import Box
from once_tools.parts.loading import Document, Value
from once_tools.parts.regions import Layout, cache_layout, key_layout, meets, region_of, selected_by

MODULE = "ietf-ipfix-psamp:ipfix"
AGGREGATION = "once-audit:aggregation"
DIRECTIONS = ("ingress", "egress")


@dataclass(frozen=True)
class Point:
    """An observation point, by the names of its selection processes."""

    name: str
    processes: tuple[str, ...]


class Device:
    """A device: what it observes, and what it adds to a part. `reach` has a bit for each device that its records can reach, and its own."""

    def __init__(self, number: int, entry: Value) -> None:
        self.number, self.entry, self.name = number, entry, entry.text_at("name")
        ipfix = entry.member("config").member(MODULE)
        self.seen: dict[tuple[str, str], list[Point]] = {}
        for point in ipfix.listed("observationPoint"):
            self.observe(point)
        self.selections = ipfix.named("selectionProcess")
        self.regions: dict[str, Box | None] = {}
        self.processes = len(ipfix.listed("collectingProcess"))
        self.layouts = layouts_of(ipfix)
        self.links: list[int] = []
        self.leads = 0
        self.reach = 0

    def observe(self, entry: Value) -> None:
        """Notes what an observation point sees."""
        point, direction = Point(entry.text_at("name"), entry.texts("selectionProcess")), entry.optional("direction")
        for one in DIRECTIONS:
            if direction is None or direction.text() in (one, "both"):
                for interface in entry.texts("ifName"):
                    self.seen.setdefault((interface, one), []).append(point)

    def takers(self, crossing: tuple[str, str], region: Box) -> list[str]:
        """Returns the selection processes that may select a packet of the region at a crossing, by name."""
        return [name for point in self.seen.get(crossing, ()) for name in point.processes if meets(self.region_at(name), region)]

    def region_at(self, name: str) -> Box | None:
        """Returns what a selection process selects."""
        if name not in self.regions:
            if name not in self.selections:
                raise self.entry.wrong(f"has no selection process '{name}', which an observation point names", "correct the name")
            self.regions[name] = selected_by(self.selections[name])
        return self.regions[name]


def layouts_of(ipfix: Value) -> frozenset[Layout]:
    """Returns the layouts of a device's caches and aggregations."""
    caches = {cache_layout(one) for one in ipfix.listed("cache")}
    return frozenset(caches | {key_layout(it.listed("key")) for one in ipfix.listed("collectingProcess") for it in one.listed(AGGREGATION)})


@dataclass
class Network:
    """The devices, the links, and the report. `layout` is that of the report."""

    root: Value
    devices: list[Device]
    by_name: dict[str, Device]
    links: list[Value]
    report: Device
    layout: Layout

    def device(self, place: Value) -> Device:
        """Returns the device that a text names."""
        return device_in(self.by_name, place)


def device_in(by_name: dict[str, Device], place: Value) -> Device:
    """Returns the device that a text names."""
    found = by_name.get(place.text())
    if found is None:
        raise place.wrong(f"names no device of the network: '{place.text()}'", "correct the name, or add the device")
    return found


def read_network(document: Document) -> Network:
    """Returns the network of a document; raises `Unusable`."""
    root = document.root
    devices = [Device(number, entry) for number, entry in enumerate(root.member("devices").entries())]
    by_name: dict[str, Device] = {}
    for one in devices:
        if by_name.setdefault(one.name, one) is not one:
            raise one.entry.wrong(f"is a second device named '{one.name}'", "give it another name")
    report = root.member("report")
    layout = key_layout(report.member("key").entries())
    network = Network(root, devices, by_name, root.member("links").entries(), device_in(by_name, report.member("device")), layout)
    join(network)
    return network


def join(network: Network) -> None:
    """Notes the links of each device, and what each device reaches by them."""
    for number, link in enumerate(network.links):
        source, target = network.device(link.member("device")), network.device(link.member("toDevice"))
        source.links.append(number)
        source.leads |= 1 << target.number
    for device in network.devices:
        device.reach = reach_of(network, device)


def reach_of(network: Network, device: Device) -> int:
    """Returns the devices that links lead to from a device, with itself, a bit for each."""
    found, waiting = 1 << device.number, [device]
    while waiting:
        fresh = waiting.pop().leads & ~found
        found |= fresh
        waiting += [network.devices[number] for number in bits(fresh)]
    return found


def bits(mask: int) -> list[int]:
    """Returns the numbers of a mask's bits, in order."""
    found = []
    while mask:
        lowest = mask & -mask
        found.append(lowest.bit_length() - 1)
        mask ^= lowest
    return found


@dataclass(frozen=True)
class Crossing:
    """A crossing of a path."""

    device: Device
    interface: str
    direction: str


@dataclass
class TrafficClass:
    """A class of the whole: its paths, and the devices that a part with it must have, a bit for each. `takers` has for each device
    the selection processes that may select its packets, if these are asked for."""

    number: int
    entry: Value
    name: str
    paths: list[list[Crossing]]
    mask: int = 0
    takers: dict[int, set[str]] = field(default_factory=dict)


def crossing_of(network: Network, entry: Value) -> Crossing:
    """Returns a crossing of a document."""
    direction = entry.text_at("direction")
    if direction not in DIRECTIONS:
        raise entry.member("direction").wrong(f"is no direction: '{direction}'", "write ingress or egress")
    return Crossing(network.device(entry.member("device")), entry.text_at("interface"), direction)


def touch(one: TrafficClass, filters: bool) -> None:
    """Notes the devices with an observation point that sees the class; with filters, only those where it may be selected."""
    region = region_of(one.entry)
    for path in one.paths:
        for crossing in path:
            place = (crossing.interface, crossing.direction)
            if place in crossing.device.seen:
                taken = crossing.device.takers(place, region) if filters else []
                if taken:
                    one.takers.setdefault(crossing.device.number, set()).update(taken)
                if taken or not filters:
                    one.mask |= crossing.device.reach


def read_classes(document: Document, network: Network, filters: bool) -> list[TrafficClass]:
    """Returns the classes of a traffic document; raises `Unusable`."""
    found: list[TrafficClass] = []
    names: set[str] = set()
    for number, entry in enumerate(document.root.member("classes").entries()):
        one = TrafficClass(number, entry, entry.text_at("name"), [[crossing_of(network, it) for it in path.entries()] for path in entry.member("paths").entries()])
        if one.name in names:
            raise entry.wrong(f"is a second class named '{one.name}'", "give it another name")
        names.add(one.name)
        touch(one, filters)
        one.mask |= network.report.reach
        found.append(one)
    return found
