"""The interfaces that pmacctd captures at, with their directions."""
from __future__ import annotations

import re
from dataclasses import dataclass, field
from typing import Mapping, Sequence

from once_tools.model import Direction, Place, Unusable
from once_tools.readers.log import Log
from once_tools.readers.pmacct_settings import Settings, other_source
from once_tools.readers.trees import numbered
from once_tools.source import Source

DIRECTIONS = {"": Direction.BOTH, "in": Direction.INGRESS, "out": Direction.EGRESS}


@dataclass
class Capture:
    """Interfaces at which packets of one direction are captured."""

    direction: Direction
    interfaces: list[tuple[str, Place]] = field(default_factory=list)


def captures_of(settings: Settings, sources: Sequence[Source], options: Mapping[str, str], log: Log) -> list[Capture]:
    """Returns what is captured, by direction. Raises Unusable if no interface is known."""
    direction = _direction(settings, sources[0], log)
    chart = settings.last("pcap_interfaces_map")
    one = settings.last("pcap_interface")
    if chart and one:
        raise Unusable(chart.place, "pmacctd does not start with both pcap_interface and pcap_interfaces_map",
                       "take one of them out")
    if chart:
        found = _mapped(chart.value, chart.place, direction, sources, log)
    elif one:
        found = [(direction, name, one.place) for name in _named(one.value, one.place, options, log)]
    elif settings.last("pcap_savefile"):
        saved = settings.last("pcap_savefile")
        place = saved.place if saved else Place("")
        log.note(place, "packets come from a file; the document calls their interface `capture`")
        found = [(direction, "capture", place)]
    elif options.get("interfaces"):
        whole = Place(sources[0].name)
        found = [(direction, name, whole) for name in _named("any", whole, options, log)]
    else:
        raise Unusable(sources[0].place(0), "has no pcap_interface, and pmacctd chooses one",
                       "write pcap_interface: NAME, or name it as `interfaces` of the device in the project")
    names = ", ".join(name for where, name, _ in found if where is Direction.BOTH)
    if names and settings.last("pcap_direction") is None:
        log.note(Place(sources[0].name),
                 f"no pcap_direction: packets that come in at {names} and packets that leave there are metered")
    return _grouped(found)


def _direction(settings: Settings, source: Source, log: Log) -> Direction:
    text = settings.value("pcap_direction")
    if text not in DIRECTIONS:
        place = settings.first("pcap_direction") or source.place(0)
        raise Unusable(place, f"there is no direction {text}", "write in or out")
    return DIRECTIONS[text]


def _named(text: str, place: Place, options: Mapping[str, str], log: Log) -> list[str]:
    """Returns the interface, or for `any` those that the project names."""
    if text != "any":
        return [text]
    names = re.split(r"[,\s]+", options.get("interfaces", "").strip())
    if names != [""]:
        log.note(place, f"the project names the interfaces: {', '.join(names)}")
        return names
    log.lost(place, "which interfaces `any` stands for is not in this file; the document has one named `any`, which no "
             "path "
             "crosses", "name them with pcap_interfaces_map, or as `interfaces` of the device in the project")
    return ["any"]


def _mapped(path: str, place: Place, usual: Direction, sources: Sequence[Source],
            log: Log) -> list[tuple[Direction, str, Place]]:
    """Returns the interfaces of a map: lines of ifindex=N ifname=NAME direction=in."""
    source = other_source(sources, path)
    if source is None:
        raise Unusable(place, "this file with the interfaces was not given",
                       f"add {path} to `config` of the device in the project")
    found = []
    for number, line in numbered(source):
        if not line.strip() or line.strip()[0] in "!#":
            continue
        at = Place(source.name, number, line.strip())
        words = dict(word.partition("=")[::2] for word in line.split())
        for key in sorted(set(words) - {"ifname", "ifindex", "direction"}):
            log.unknown(at, key, ("ifname", "ifindex", "direction"))
        if not words.get("ifname") or words.get("direction", "") not in DIRECTIONS:
            log.lost(at, "this line has no ifname, or a direction that is neither in nor out, and is left out",
                     "write ifindex=N ifname=NAME direction=in")
            continue
        found.append((DIRECTIONS[words["direction"]] if "direction" in words else usual, words["ifname"], at))
    if not found:
        raise Unusable(source.place(0), "names no interface", "write lines of ifindex=N ifname=NAME")
    return found


def _grouped(found: Sequence[tuple[Direction, str, Place]]) -> list[Capture]:
    """Returns a capture for each direction, in the order of its first interface; an interface is in it once."""
    captures: dict[Direction, Capture] = {}
    for direction, name, place in found:
        capture = captures.setdefault(direction, Capture(direction))
        if name not in [other for other, _ in capture.interfaces]:
            capture.interfaces.append((name, place))
    return list(captures.values())
