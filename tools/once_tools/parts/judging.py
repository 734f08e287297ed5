"""The judge of parts: whether parts with their certificates cover every path of a whole. It is written apart from the cutter.

A part is a part of the whole if each of its collecting processes does the same with records as the one of the same names in the whole, and
the report is the same. It covers a path of a class if it has a class of that name with the same region, as exempt as that, and a path
along which the same caches take the packets in. Selection processes that select no packet of the class are not compared.
"""
from __future__ import annotations

from dataclasses import dataclass
from typing import Iterator, Sequence

from once_tools.parts.loading import Value
from once_tools.parts.meaning import Handling, Metering, NetworkMeaning, Process, Region, Sending, region_of_class

Crossing = tuple[str, str, str]


@dataclass(frozen=True)
class ClassMeaning:
    """A class: what of it is compared."""

    name: str
    region: Region
    is_exempt: bool
    paths: list[list[Crossing]]


@dataclass(frozen=True)
class Judged:
    """A network with its traffic; `name` is that of the part."""

    name: str
    network: NetworkMeaning
    classes: dict[str, ClassMeaning]


def crossing_of(entry: Value, network: NetworkMeaning) -> Crossing:
    """Returns a crossing; raises `Unusable` if its device is not in the network."""
    found = entry.text_at("device"), entry.text_at("interface"), entry.text_at("direction")
    if found[0] not in network.devices:
        raise entry.member("device").wrong(f"names no device of the network: '{found[0]}'", "correct the name, or add the device")
    if found[2] not in ("ingress", "egress"):
        raise entry.member("direction").wrong(f"is no direction: '{found[2]}'", "write ingress or egress")
    return found


def class_of(entry: Value, network: NetworkMeaning) -> ClassMeaning:
    """Returns a class of a traffic document."""
    paths = [[crossing_of(it, network) for it in path.entries()] for path in entry.member("paths").entries()]
    return ClassMeaning(entry.text_at("name"), region_of_class(entry), "exempt" in entry.members(), paths)


def judged(name: str, network: Value, traffic: Value, whole: NetworkMeaning | None = None) -> Judged:
    """Returns a network with its traffic, from their documents; raises `Unusable` if these are malformed."""
    meaning = NetworkMeaning(network, whole)
    return Judged(name, meaning, {text: class_of(one, meaning) for text, one in traffic.named("classes").items()})


def describe(process: Process | None) -> str:
    """Returns a collecting process in words."""
    return f"collecting process '{process[1]}' of device '{process[0]}'" if process is not None else "no collecting process"


def sendings_differ(whole: Sequence[Sending], part: Sequence[Sending]) -> str:
    """Returns how sendings differ, an empty text if they do not."""
    for one, other in zip(whole, part):
        for lead, lead_there in zip(one.leads, other.leads):
            if lead != lead_there:
                return f"a destination leads to {describe(lead_there)}, in the whole to {describe(lead)}"
        if one != other:
            return "an exporting process has another mode or number of destinations than in the whole"
    return "" if len(whole) == len(part) else "there is another number of exporting processes than in the whole"


def handlings_differ(whole: Handling, part: Handling) -> str:
    """Returns how a collecting process differs from that of the whole, an empty text if it does not."""
    if whole == part:
        return ""
    found = sendings_differ(whole.sendings, part.sendings)
    for one, other in zip(whole.takings, part.takings):
        found = found or sendings_differ(one.sendings, other.sendings)
    return found or "its aggregations have another key, matches or number than in the whole"


def faults_of_part(whole: NetworkMeaning, part: Judged) -> Iterator[str]:
    """Yields why a part is no part of the whole."""
    if part.network.report != whole.report:
        yield f"part {part.name}: the report is of {describe(part.network.report)}, in the whole of {describe(whole.report)}"
    if part.network.layout != whole.layout:
        yield f"part {part.name}: the report has another key than in the whole"
    for process in part.network.processes():
        if not whole.has(process):
            yield f"part {part.name}: the whole has no {describe(process)}"
        else:
            found = handlings_differ(whole.handling(process), part.network.handling(process))
            if found:
                yield f"part {part.name}: {describe(process)}: {found}"


def may_take(one: Metering, region: Region) -> bool:
    """Returns whether a selection process may select a packet of a region."""
    if one.low_high is None:
        return False
    return all(axis not in region or low <= region[axis][1] and region[axis][0] <= high for axis, low, high in one.low_high)


def meterings(network: NetworkMeaning, path: Sequence[Crossing], region: Region) -> list[Metering]:
    """Returns what may take packets of a region in along a path."""
    return [one for crossing in path for one in network.meterings(*crossing) if may_take(one, region)]


def meterings_differ(whole: Sequence[Metering], part: Sequence[Metering]) -> str:
    """Returns how what takes packets in along a path differs from the whole, an empty text if it does not."""
    for one, other in zip(whole, part):
        if one != other:
            found = sendings_differ(one.sendings, other.sendings)
            same = (one.device, one.names) == (other.device, other.names)
            if same and one.low_high == other.low_high:
                return f"device '{one.device}', {one.names}: {found or 'its cache has other flow keys than in the whole'}"
            if same:
                return f"device '{one.device}', {one.names}: the filters are others than in the whole"
            return f"device '{one.device}', {one.names} meters it in the whole; the part has device '{other.device}', {other.names} there"
    if len(whole) > len(part):
        one = whole[len(part)]
        return f"device '{one.device}', {one.names} meters it in the whole, and not in the part"
    if len(whole) < len(part):
        other = part[len(whole)]
        return f"device '{other.device}', {other.names} meters it in the part, and not in the whole"
    return ""


class Judge:
    """Judges parts of a whole."""

    def __init__(self, whole: Judged) -> None:
        self.whole = whole
        self.metered: dict[tuple[str, int], list[Metering]] = {}
        self.covered: dict[tuple[str, int], list[str]] = {}

    def faults_of(self, part: Judged) -> Iterator[str]:
        """Yields why a part is no part of the whole, and notes the paths that it covers."""
        yield from faults_of_part(self.whole.network, part)
        for name, one in part.classes.items():
            of_whole = self.whole.classes.get(name)
            if of_whole is None:
                yield f"part {part.name}: the whole has no class '{name}'"
            else:
                self.compare(part, of_whole, one)

    def compare(self, part: Judged, of_whole: ClassMeaning, one: ClassMeaning) -> None:
        """Notes for each path of a class of the whole why a part does not cover it; an empty text if it does."""
        said = ""
        if one.region != of_whole.region:
            said = "it has another region there"
        elif one.is_exempt != of_whole.is_exempt:
            said = "it is exempt there, and not in the whole" if one.is_exempt else "it is not exempt there, and in the whole it is"
        found = [] if said else [meterings(part.network, path, one.region) for path in one.paths]
        for number in range(len(of_whole.paths)):
            there = self.metered_along(of_whole, number)
            reasons = [meterings_differ(there, it) for it in found]
            reason = said or ("" if "" in reasons else reasons[min(number, len(reasons) - 1)] if reasons else "it has no path there")
            self.covered.setdefault((one.name, number), []).append(f"part {part.name}: {reason}" if reason else "")

    def metered_along(self, one: ClassMeaning, number: int) -> list[Metering]:
        """Returns what may take packets in along a path of the whole."""
        if (one.name, number) not in self.metered:
            self.metered[(one.name, number)] = meterings(self.whole.network, one.paths[number], one.region)
        return self.metered[(one.name, number)]

    def faults_of_classes(self) -> Iterator[str]:
        """Yields the classes of the whole, with their paths, that no part covers."""
        for name, one in self.whole.classes.items():
            if not one.paths:
                yield f"class '{name}' has no path"
            for number in range(len(one.paths)):
                reasons = self.covered.get((name, number), ["no part has it"])
                if "" not in reasons:
                    yield f"class '{name}', path {number + 1}: {'; '.join(reasons)}"
