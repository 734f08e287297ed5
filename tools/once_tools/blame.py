"""Turns an answer of `once` into files and lines of configurations: which lines meter a packet, and where it is lost."""
from __future__ import annotations

from typing import Mapping, Sequence

from once_tools.answers import Refusal, Refutation
from once_tools.elements import ADDRESSES
from once_tools.model import Finding, Grade, Place
from once_tools.network_view import DeviceView, Json, NetworkView, Sighting, entries, texts


def packet_words(packet: Mapping[str, str]) -> str:
    """Returns a packet in words."""
    version = packet.get("ipVersion", "4")
    axes = [axis for axis in ADDRESSES if ADDRESSES[axis] == (6 if version == "6" else 4)]
    return f"a packet of IPv{version} from {packet.get(axes[0], '?')} to {packet.get(axes[1], '?')}"


def metered_at(one: Sighting) -> str:
    """Returns in words where a sighting is."""
    verb = "comes in at" if one.direction == "ingress" else "leaves at"
    return f"{verb} {one.device.name} {one.interface}"


def finding(one: Sighting, says: str, todo: str) -> Finding:
    """Returns a finding at the line of a sighting."""
    return Finding(Grade.WARNING, one.device.place(one.pointer), says, todo, device=one.device.name)


def way(path: Sequence[Json]) -> str:
    """Returns the crossings of a path in words."""
    return ", ".join(f"{one.get('device')} {one.get('interface')} {one.get('direction')}" for one in path)


def taken_twice(first: Sighting, other: Sighting, name: str) -> Finding:
    """Returns what is to be said of a packet that two selection processes of one point take."""
    device = first.device
    says = f"this and {device.describe(other.taken_by)} take the same packets: '{name}' {metered_at(first)}, and " \
           f"{device.named(first.taken_by)} and {device.named(other.taken_by)} both take it, so each packet counts twice"
    return Finding(Grade.WARNING, device.place(first.taken_by), says, "leave what one of them takes out of the other, or export "
                   "one of them to another collector", device=device.name)


def advice(first: Sighting, other: Sighting) -> str:
    """Returns what to do about two points that meter the same packets."""
    if first.crossing == other.crossing:
        return "take one of them off, or export one of them to another collector"
    if first.device is other.device and first.direction != other.direction:
        return "meter input on all interfaces and output on none"
    return "meter where packets come into the network, and nowhere after that"


def counted_twice(counted: list[Sighting], name: str, path: Sequence[Json]) -> list[Finding]:
    """Returns what is to be said of a packet that is counted more than once."""
    first = counted[0]
    if len(counted) == 1:
        return [finding(first, f"'{name}': the record of one packet reaches the report in {first.ways} ways, so each "
                               "packet counts that many times", "send it to the report once")]
    found = []
    for other in counted[1:]:
        if first.crossing == other.crossing and first.point == other.point:
            found.append(taken_twice(first, other, name))
            continue
        other_line = other.device.describe(other.pointer)
        between = path[first.crossing - 1:other.crossing]
        how = f"{metered_at(first)} and {metered_at(other)}" if first.crossing != other.crossing else \
            f"{metered_at(first)}, where both take it"
        how += f" ({way(between)})" if len(between) > 2 else ""
        if first.device.place(first.pointer) == other.device.place(other.pointer):
            says = f"'{name}' {how}: both are metered here, so each packet counts twice"
        else:
            says = f"this and {other_line} meter the same packets: '{name}' {how}, so each counts twice"
        found.append(finding(first, says, advice(first, other)))
    return found


def points_at(device: DeviceView, interface: str) -> list[str]:
    """Returns the pointers of a device's points at an interface."""
    found = []
    for number, point in enumerate(device.list("observationPoint")):
        names = texts(point.get("ifName"))
        if interface in names:
            found.append(f"/observationPoint/{number}/ifName/{names.index(interface)}")
    return found


def nowhere(view: NetworkView, path: Sequence[Json], name: str, packet: Mapping[str, str]) -> list[Finding]:
    """Returns what is to be said of a packet that nothing meters: at the first point of another kind on its path, or the
    first interface of a device that meters in the direction of the crossing."""
    seen: list[str] = []
    places: list[tuple[int, Place]] = []
    for crossing in path:
        interface, direction = str(crossing.get("interface")), str(crossing.get("direction"))
        device = next((one for one in view.devices if one.name == crossing.get("device")), None)
        at = f"{crossing.get('device')} {interface} {direction}"
        pointers = points_at(device, interface) if device else []
        if device is None or not pointers:
            seen.append(f"{at} has no monitor")
            places += [(1 if device.meters(direction) else 2, device.interface_place(interface))] if device else []
        else:
            takes = "which does not take it" if len(pointers) == 1 else "which do not take it"
            seen.append(f"{at} has {' and '.join(device.describe(one) for one in pointers)}, {takes}")
            places.append((0, device.place(pointers[0])))
    known = sorted([one for one in places if one[1].file], key=lambda one: one[0])
    says = f"'{name}': {packet_words(packet)} is metered nowhere: {'; '.join(seen) or 'nothing on its path is metered (--full keeps the crossings)'}"
    return [Finding(Grade.WARNING, known[0][1] if known else Place(""), says,
                    "add a monitor of its version of IP and direction at one of these")]


def judged(view: NetworkView, sightings: list[Sighting], path: Sequence[Json], name: str, exempt: bool,
           packet: Mapping[str, str]) -> list[Finding]:
    """Returns what is wrong with the count of a packet."""
    counted = [one for one in sightings if one.ways]
    unassigned = [one for one in sightings if one.unassigned]
    if exempt and (counted or unassigned):
        return [finding(one, f"this counts '{name}', which is exempt: {packet_words(packet)} {metered_at(one)}",
                        "take the monitor off, or declare the traffic as counted") for one in [*counted, *unassigned]]
    if unassigned:
        return [finding(one, f"records of '{name}' reach the report without its key (unassigned): {line} made them", "keep "
                        "the key of the report, or ask for another report") for one in unassigned for line in one.unread]
    if sum(one.ways for one in counted) > 1:
        return counted_twice(counted, name, path)
    if not sightings:
        return nowhere(view, path, name, packet)
    return [finding(one, f"'{name}' is metered here, and lost: {lost}", "send it to a collector that leads to the report")
            for one in sightings for lost in dict.fromkeys(one.lost)]


def blame_refutation(network: Json, traffic: Json, refutation: Refutation) -> list[Finding]:
    """Returns the lines that make a packet of a refutation count wrongly."""
    view = NetworkView(network)
    classes = entries(traffic.get("classes"))
    one = classes[refutation.number_of_class - 1] if refutation.number_of_class <= len(classes) else {}
    paths = one.get("paths")
    path = entries(paths[refutation.path - 1]) if isinstance(paths, list) and refutation.path <= len(paths) else []
    sightings = view.sightings(path, refutation.packet)
    for each in sightings:
        number = view.devices.index(each.device) + 1
        view.follow(each, refutation.choices.get((number, (each.cache or 0) + 1), []))
    return judged(view, sightings, path, str(one.get("name", "")), "exempt" in one, refutation.packet)


def blame_refusal(network: Json, refusal: Refusal) -> list[Finding]:
    """Returns the line that makes `once` refuse a network."""
    number, pointer = refusal.number, refusal.pointer
    parts = pointer.split("/")
    devices = NetworkView(network).devices
    if len(parts) > 4 and parts[1] == "devices" and parts[2].isdigit() and int(parts[2]) < len(devices):
        device = devices[int(parts[2])]
        place = device.place("/" + "/".join(parts[5:]))
        return [Finding(Grade.WARNING, place, f"once refuses this with {number} at {pointer}", f"see `once explain {number}`",
                        number=number, device=device.name)]
    return [Finding(Grade.WARNING, Place(""), f"once refuses {pointer or 'the documents'} with {number}",
                    f"see `once explain {number}`", number=number)]


def blame(network: Json, traffic: Json, fault: Refutation | Refusal | None) -> list[Finding]:
    """Returns what a refutation or a refusal says about lines of configurations; nothing for other answers."""
    if isinstance(fault, Refutation):
        return blame_refutation(network, traffic, fault)
    return blame_refusal(network, fault) if fault else []
