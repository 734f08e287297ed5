"""MikroTik RouterOS: traffic flow, from `/export terse`.

Whether a packet between two listed interfaces counts once or twice is documented nowhere: the project says so with
`counts`.
"""
from __future__ import annotations

import re
from dataclasses import dataclass, field
from typing import Iterator, Mapping

from once_tools.model import Cache, Destination, Device, Direction, Exporter, Interface, Place, Point, Topic, Unusable
from once_tools.readers import filters
from once_tools.readers.closing import close_subinterfaces
from once_tools.readers.log import Log
from once_tools.readers.records import ADDRESSES, PORTS, destination_name, fields
from once_tools.readers.trees import numbered
from once_tools.source import Source

MENUS = ("interface", "ip", "ipv6", "system", "routing", "ppp", "queue", "snmp")
VERBS = ("add", "set", "remove", "disable", "enable")
FLOW = {"enabled", "interfaces", "active-flow-timeout", "inactive-flow-timeout", "cache-entries", "packet-sampling",
        "sampling-interval",
        "sampling-space"}
TARGET = {"dst-address", "port", "version", "src-address", "v9-template-refresh", "v9-template-timeout", "address",
          "disabled", "vrf"}
# Fields of IPFIX records that a router may leave out.
FIELDS = {"src-address": "sourceAddress", "dst-address": "destinationAddress", "protocol": "protocolIdentifier",
          "src-port": "sourceTransportPort",
          "dst-port": "destinationTransportPort", "tos": "ipClassOfService"}
# Whether records have the version of IP is not known: an axis that is unsure is left out of the keys.
KEYS = (*ADDRESSES, "protocolIdentifier", *PORTS, "ipClassOfService")
VERSIONS = {"1": 1, "5": 5, "9": 9, "ipfix": 10}
COUNTS = {"ingress": Direction.INGRESS, "both": Direction.BOTH}
NAME = "traffic-flow"
# Actions of a rule under `/ip firewall nat` that change no address; a rule without an action accepts.
CHANGES_NOTHING = ("accept", "jump", "return", "log", "passthrough")
FOUND = re.compile(r"\[ ?find [^\]]*\]")
# The name that an interface has unless the line sets another.
DEFAULT_NAME = re.compile(r"\[ ?find default-name=([^\s\]]+) ?\]")
WORDS = re.compile(r'(?:[^\s"]|"(?:[^"\\]|\\.)*"?)+')
QUOTES = re.compile('"')


@dataclass
class Line:
    """A command: its menu, verb and values."""

    menu: str
    verb: str
    values: dict[str, str] = field(default_factory=dict)
    place: Place = Place("")


def joined_lines(source: Source) -> Iterator[tuple[int, str]]:
    """Yields the lines of an export with their numbers. A backslash at the end continues a line, without the spaces before the
    rest: an export breaks lines within words too."""
    first, text = 0, ""
    for number, line in numbered(source):
        text, first = (text + line.strip(), first) if first else (line.strip(), number)
        if text.endswith("\\"):
            text = text[:-1]
            continue
        if text and not text.startswith("#"):
            yield first, text
        first, text = 0, ""
    if text:
        yield first, text


def commands_of(source: Source) -> Iterator[Line]:
    """Yields the commands of an export; the menu is in the line, or in a line before."""
    menu: list[str] = []
    for number, text in joined_lines(source):
        place = Place(source.name, number, text)
        words = [QUOTES.sub("", word) for word in WORDS.findall(FOUND.sub("", text))]
        default = DEFAULT_NAME.search(text)
        verb = next((index for index, word in enumerate(words) if word in VERBS), len(words))
        if words and re.match("/[a-z]", words[0]):
            menu = words[:verb]
        if verb < len(words):
            pairs = [word.partition("=") for word in words[verb + 1:]]
            values = {"name": default[1]} if default else {}
            yield Line(" ".join(menu).lstrip("/").replace("/", " "), words[verb],
                       values | {key: value for key, _, value in pairs}, place)


class _Reading:
    """Reads one router."""

    def __init__(self, name: str, sources: list[Source], options: Mapping[str, str]) -> None:
        self.log, self.options = Log(name), options
        self.device = Device(name, "mikrotik", [one.name for one in sources], findings=self.log.findings)
        self.lines = [one for source in sources for one in commands_of(source)]
        if not any(one.menu.split(" ")[0] in MENUS for one in self.lines):
            raise Unusable(sources[0].place(0), "has no command of RouterOS", "give the output of `/export terse`")
        self.settings: dict[str, str] = {}
        self.place = Place(sources[0].name)
        self.records: dict[str, tuple[str, Place]] = {}
        self.interfaces: dict[str, Interface] = {}
        self.bridged: dict[str, tuple[str, Place]] = {}

    def read(self) -> Device:
        for one in self.lines:
            self.take(one)
        close_subinterfaces(self.interfaces)
        self.device.interfaces = list(self.interfaces.values())
        if self.settings.get("enabled", "no") != "yes":
            self.log.note(self.place, "traffic-flow is not enabled: nothing is metered")
        elif not self.device.exporters:
            self.log.note(self.place, "traffic-flow has no target that is enabled: nothing is exported")
        else:
            self.meter()
            self.report_rest()
        return self.device

    def take(self, one: Line) -> None:
        if one.menu == "ip traffic-flow" and one.verb == "set":
            self.settings.update(one.values)
            self.place = one.place
            for key in sorted(set(one.values) - FLOW):
                self.log.unknown(one.place, key, sorted(FLOW))
        elif one.menu == "ip traffic-flow target" and one.verb == "add":
            self.target(one)
        elif one.menu == "ip traffic-flow ipfix" and one.verb == "set":
            self.records.update({key: (value, one.place) for key, value in one.values.items()})
        elif "traffic-flow" in one.menu:
            self.log.unknown(one.place, f"{one.menu} {one.verb}", ["ip traffic-flow set", "ip traffic-flow target add"])
        elif one.menu == "system identity":
            self.device.hostname = one.values.get("name", self.device.hostname)
        elif one.menu in ("ip address", "ipv6 address") and one.verb == "add" and one.values.get("disabled") != "yes":
            name = one.values.get("interface", "")
            known = self.interfaces.setdefault(name, Interface(name, one.place)).addresses
            known += [one.values["address"]] if one.values.get("address", "") not in ("", *known) else []
        elif one.menu == "interface bridge port" and one.verb == "add" and one.values.get("disabled") != "yes":
            self.bridged[one.values.get("interface", "")] = (one.values.get("bridge", ""), one.place)
        elif one.menu.startswith("interface ") and one.values.get("name"):
            for name in filter(None, one.values.get("slaves", "").split(",")):
                self.bridged[name] = (one.values["name"], one.place)
            found = self.interfaces.setdefault(one.values["name"], Interface(one.values["name"], one.place))
            found.description = one.values.get("comment", found.description)
            found.is_shut = one.values.get("disabled", "yes" if found.is_shut else "no") == "yes"
            found.parent = one.values.get("interface", found.parent) if one.menu == "interface vlan" else found.parent
            found.vlan = int(one.values["vlan-id"]) if one.values.get("vlan-id", "").isdigit() else found.vlan
        elif one.menu == "ip vrf" and one.verb == "add":
            self.vrf(one)

    def vrf(self, one: Line) -> None:
        for name in filter(None, one.values.get("interfaces", "").split(",")):
            self.interfaces.setdefault(name, Interface(name, one.place)).vrf = one.values.get("name", "")

    def target(self, one: Line) -> None:
        for key in sorted(set(one.values) - TARGET):
            self.log.unknown(one.place, key, sorted(TARGET))
        if one.values.get("disabled") == "yes":
            self.log.note(one.place, "the target is disabled, and left out")
            return
        address, port = one.values.get("dst-address", one.values.get("address", "")), one.values.get("port", "2055")
        version = VERSIONS.get(one.values.get("version", "9"))
        if not address or not re.fullmatch("[0-9]{1,5}", port) or not 0 < int(port) < 65536 or version is None:
            raise Unusable(one.place, "is not a target: it has no address, or a port or version that there is not",
                           "write dst-address=ADDRESS port=PORT version=ipfix")
        where = Destination(destination_name(address, int(port)), address, int(port), one.place, "udp",
                            one.values.get("vrf", ""), version)
        name = f"{address}:{port}"
        if name not in [other.name for other in self.device.exporters]:
            self.device.exporters.append(Exporter(name, [where], one.place, "parallel",
                                                  one.values.get("src-address", "")))
        if "version" not in one.values:
            self.log.premise(one.place, "no version is given: NetFlow 9 is taken to be sent", "set version=ipfix", Topic.OTHER, None,
                             (name,))
        if version != 10:
            self.log.note(one.place, f"NetFlow {version} is not IPFIX: the audit is the same, but `once collect` "
                          f"refuses its messages",
                          "set version=ipfix", 611, (name,))

    def meter(self) -> None:
        """Adds the point, and the caches of both versions of IP."""
        exporters = [one.name for one in self.device.exporters]
        keys = [axis for axis in KEYS if not self.is_left_out(axis)]
        selections = []
        for version in (4, 6):
            able = [one.name for one in self.device.exporters if version == 4 or one.destinations[0].version in (9, 10)]
            cache = f"{NAME} IPv{version}"
            self.device.caches.append(Cache(cache, "timeout", fields(keys, version, self.place), able, self.place))
            selections.append(filters.whole_family(cache, version, cache, self.place))
        names = self.names(exporters)
        if not names:
            self.log.note(self.place, "no interface is metered", exporters=exporters)
            return
        self.device.points.append(Point(NAME, names, self.direction(exporters), selections, self.place,
                                        [self.place] * len(names)))

    def is_left_out(self, axis: str) -> bool:
        return any(self.records.get(name, ("yes", self.place))[0] == "no" for name, other in FIELDS.items()
                   if other == axis)

    def names(self, exporters: list[str]) -> list[str]:
        text = self.settings.get("interfaces", "all")
        if text != "all":
            names = self.listed([name for name in text.split(",") if name], exporters)
            self.device.interfaces = list(self.interfaces.values())
            return names
        names = [one.name for one in self.interfaces.values() if not one.is_shut]
        self.report_bridges(names, exporters)
        self.log.premise(self.place, f"`interfaces` is all; the export names {', '.join(names) or 'none'}",
                         "name the interfaces", Topic.OTHER, None,
                         exporters)
        return names or ["all"]

    def listed(self, names: list[str], exporters: list[str]) -> list[str]:
        """Returns the interfaces of a list that are not disabled; a name that the export does not have is reported."""
        found = []
        for name in names:
            if name not in self.interfaces:
                self.log.premise(self.place, f"interface {name} is not in this export, which leaves out interfaces without "
                                 "settings of their own: it is taken to be one, and no list of interfaces", "name the "
                                 "interfaces of a list", Topic.OTHER, None, exporters)
            one = self.interfaces.setdefault(name, Interface(name, self.place))
            if one.is_shut:
                self.log.note(self.place, f"{name} is disabled, and left out", exporters=exporters)
            else:
                found.append(name)
        self.report_bridges(found, exporters)
        self.report_vlans(found, exporters)
        return found

    def report_vlans(self, names: list[str], exporters: list[str]) -> None:
        """Reports VLANs that are not listed beside their interface."""
        for one in self.interfaces.values():
            if one.parent in names and one.name not in names and not one.is_shut:
                self.log.premise(one.place, f"{one.name} is a VLAN of {one.parent}, which is listed without it: its packets are "
                                 "taken not to be metered", f"list {one.name}, if it is to be metered", Topic.OTHER, None,
                                 exporters)

    def report_bridges(self, names: list[str], exporters: list[str]) -> None:
        """Reports ports of bridges that are metered beside their bridge."""
        for name in names:
            bridge, place = self.bridged.get(name, ("", self.place))
            if bridge in names:
                self.log.premise(place, f"{name} is a port of {bridge}, and both are listed: packets that are routed are taken to "
                                 f"be metered at {bridge} alone", f"list {bridge} without its ports", Topic.OTHER, None,
                                 exporters)

    def direction(self, exporters: list[str]) -> Direction:
        found = COUNTS.get(self.options.get("counts", ""))
        if found is None:
            self.log.premise(self.place, "packets are metered where they come in: whether a packet between two of the "
                             "interfaces counts once or twice is "
                             "not documented", "send ten packets through the router, look at the records, and set "
                             "`counts` of the device in the project "
                             "to ingress or both", Topic.OTHER, None, exporters)
        return found or Direction.INGRESS

    def translates(self, one: Line) -> bool:
        return one.menu == "ip firewall nat" and one.verb == "add" and one.values.get("disabled") != "yes" \
            and one.values.get("action", "accept") not in CHANGES_NOTHING

    def report_rest(self) -> None:
        exporters = [one.name for one in self.device.exporters]
        if self.settings.get("packet-sampling", "no") != "no":
            space, interval = self.settings.get("sampling-space", "0"), self.settings.get("sampling-interval", "0")
            self.log.sampler(self.place, f"N (sampling-interval={interval}, sampling-space={space})", exporters)
        for key, (value, place) in sorted(self.records.items()):
            if key in ("bytes", "packets") and value == "no":
                self.log.lost(place, f"records have no {key}, but the document has the counter", f"set {key}=yes",
                              Topic.COUNTERS, 114, exporters)
            elif value == "no":
                self.log.note(place, f"records have no {key}", exporters=exporters)
        for one in self.lines:
            if self.translates(one):
                self.log.lost(one.place, "NAT: packets have other addresses beyond the router than where they are "
                              "metered, and a report by address counts "
                              "them under those that the meter sees",
                              "report by addresses that are not translated, or accept this", Topic.NAT, None,
                              exporters)
            elif one.values.get("l3-hw-offloading") == "yes":
                self.log.lost(one.place, "packets that the switch chip routes may pass traffic-flow by, but the document "
                              "meters them", "set l3-hw-offloading=no, or compare totals with counters of the device",
                              Topic.OTHER, None, exporters)
            elif one.menu == "ip firewall filter" and one.values.get("action") == "fasttrack-connection":
                self.log.premise(one.place, "packets of fasttracked connections are metered too", "", Topic.OTHER, None,
                                 exporters)
        self.log.premise(self.place, "the flow keys are addresses, ports, protocol and class of service, and counters "
                         "have 8 octets", "look at its templates with `once-import template`", Topic.COUNTERS, 618, exporters)


class Mikrotik:
    kind = "mikrotik"
    title = "MikroTik RouterOS"
    how_to_get = "/export terse"
    certainty = "unsure"

    def detect(self, text: str) -> int:
        if re.search(r"(?m)^/ip traffic-flow", text):
            return 98
        return 80 if re.search(r"(?m)^/(ip address|interface \w+)( (add|set)\b|\s*$)", text) else 0

    def read(self, name: str, sources: list[Source], options: Mapping[str, str]) -> Device:
        return _Reading(name, sources, options).read()


READER = Mikrotik()
