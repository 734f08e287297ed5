"""Cisco IOS-XR: flow exporter, monitor and sampler maps, from `show running-config`, indented or `formal`."""
from __future__ import annotations

import difflib
import ipaddress
import re
from dataclasses import dataclass, field
from typing import Mapping

from once_tools.model import Cache, Destination, Device, Direction, Exporter, Interface, Place, Point, Topic, Unusable
from once_tools.readers import filters
from once_tools.readers.closing import IN_A_BUNDLE, bundles_of, close_subinterfaces
from once_tools.readers.interface_names import aliases_of, parent_of
from once_tools.readers.log import Log, sampling
from once_tools.readers.paths_of_words import statements
from once_tools.readers.records import ADDRESSES, PORTS, destination_name, fields
from once_tools.readers.statements import match
from once_tools.readers.trees import Statement
from once_tools.source import Source

KEYS = (*ADDRESSES, "protocolIdentifier", *PORTS, "ipClassOfService")
VERSIONS = {"ipv4": 4, "ipv6": 6}
DIRECTIONS = {"ingress": Direction.INGRESS, "egress": Direction.EGRESS}
HARMLESS_EXPORTER = ("dscp", "packet-length", "df-bit", "version")
HARMLESS_OPTIONS = ("bgpattr", "outphysint", "outbundlemember")
MOST_INTERFACES = 256
# Words after the name of an interface, and words that only statements about flows have.
KINDS_OF_INTERFACE = ("l2transport", "point-to-point", "multipoint")
FLOW_MAPS = {"monitor", "monitor-map", "exporter-map", "sampler-map", "mon"}
# What only a text of IOS-XR has.
OWN = re.compile(r"(?m)^(!! IOS XR|interface (Bundle-Ether|TenGigE|HundredGigE|FortyGigE|MgmtEth)"
                 r"|interface GigabitEthernet\d+/\d+/\d+/\d)")


@dataclass
class ExporterMap:
    place: Place
    destination: tuple[str, str, Place] | None = None
    port: int | None = None
    version: tuple[str, Place] | None = None
    source: str = ""


@dataclass
class MonitorMap:
    place: Place
    record: tuple[list[str], Place] | None = None
    exporters: list[tuple[str, Place]] = field(default_factory=list)
    kind: str = "timeout"
    settings: dict[str, int] = field(default_factory=dict)


@dataclass
class Use:
    """A monitor at an interface."""

    interface: str
    family: str
    monitor: str
    sampler: str
    direction: str
    place: Place


class _Reading:
    """Reads one router."""

    def __init__(self, name: str, sources: list[Source]) -> None:
        self.log = Log(name)
        self.device = Device(name, "cisco-xr", [one.name for one in sources], findings=self.log.findings)
        self.exporters: dict[str, ExporterMap] = {}
        self.monitors: dict[str, MonitorMap] = {}
        self.samplers: dict[str, tuple[int | None, Place]] = {}
        self.interfaces: dict[str, Interface] = {}
        self.uses: dict[tuple[str, ...], Use] = {}
        self.found = 0
        for source in sources:
            for one in statements(source):
                self.take(one)
        if not self.found and not any(OWN.search(source.text) for source in sources):
            raise Unusable(sources[0].place(0), "has no statement of IOS-XR",
                           "give the output of `show running-config formal`")

    def take(self, one: Statement) -> None:
        """Takes a statement into the map or interface that it belongs to."""
        words, place = one.words, one.place
        handlers = [("flow exporter-map *", self.exporter_map), ("flow monitor-map *", self.monitor_map),
                    ("sampler-map *", self.sampler_map),
                    ("interface preconfigure *", self.interface), ("interface *", self.interface)]
        for pattern, handler in handlers:
            found = match(words, pattern)
            if found:
                self.found += not pattern.startswith("interface")
                if found[1:2] == ["apply-group"]:
                    break
                is_kind = pattern.startswith("interface") and found[1:2] and found[1] in KINDS_OF_INTERFACE
                handler(found[0], found[2 if is_kind else 1:], place)
                return
        if words[0] == "hostname" and len(words) == 2:
            self.device.hostname = words[1]
        elif "apply-group" in words or words[0] == "apply-group":
            self.log.lost(place, "groups are not resolved, so what they bring is not in the document",
                          "send the output of `show running-config inheritance`")
        elif words[0] in ("flow", "sampler-map") or {"flow", "sampler"} & set(words) and words[0] != "!!" \
                and (match(words, "group *") or FLOW_MAPS & set(words)) or "netflow" in words:
            self.log.unknown(place, " ".join(words[:3]), ["flow exporter-map", "flow monitor-map", "sampler-map"])

    def exporter_map(self, name: str, words: list[str], place: Place) -> None:
        one = self.exporters.setdefault(name, ExporterMap(place))
        destination, port = match(words, "destination *"), match(words, "transport udp *")
        version = match(words, "version *")
        if destination and destination[1:2] in ([], ["vrf"]):
            one.destination = (destination[0], destination[2] if len(destination) > 2 else "", place)
        elif port and len(port) == 1 and port[0].isdigit() and 0 < int(port[0]) < 65536:
            one.port = int(port[0])
        elif version and version[0] in ("v9", "ipfix"):
            if len(version) == 1 or one.version is None:
                one.version = (version[0], place)
            if version[1:2] not in ([], ["options"], ["template"]):
                self.log.unknown(place, " ".join(words[2:]), ["options", "template"], (name,))
        elif words[:1] in (["source"], ["source-address"]) and len(words) > 1:
            one.source = words[1]
        elif words and words[0] not in HARMLESS_EXPORTER or version:
            self.log.unknown(place, " ".join(words), ["destination", "transport udp", "version ipfix", "version v9",
                                                      "source"], (name,))

    def monitor_map(self, name: str, words: list[str], place: Place) -> None:
        one = self.monitors.setdefault(name, MonitorMap(place))
        timeout = match(words, "cache timeout active|inactive *")
        if words[:1] == ["record"] and len(words) > 1:
            one.record = (words[1:], place)
        elif words[:1] == ["exporter"] and len(words) == 2:
            one.exporters += [(words[1], place)] if words[1] not in [name for name, _ in one.exporters] else []
        elif timeout and timeout[1].isdigit():
            one.settings["activeTimeout" if timeout[0] == "active" else "idleTimeout"] = int(timeout[1])
        elif words[:2] == ["cache", "entries"] and words[2:] and words[2].isdigit():
            one.settings["maxFlows"] = int(words[2])
        elif words in (["cache", "permanent"], ["cache", "immediate"]):
            one.kind = words[1]
        elif words == ["option", "filtered"]:
            self.log.lost(place, "only packets that an access list captures are metered; the document meters all packets",
                          "take the option out", Topic.FILTER, None, [exporter for exporter, _ in one.exporters])
        elif words and words[:3] not in (["cache", "timeout", "update"],
                                         ["cache", "timeout", "rate-limit"]) and (
                words[0] != "option" or words[1:2] and words[1] not in HARMLESS_OPTIONS):
            self.log.unknown(place, " ".join(words), ["record ipv4", "record ipv6", "exporter", "cache entries",
                                                      "cache timeout active",
                                                      "cache timeout inactive"],
                             [exporter for exporter, _ in one.exporters])

    def sampler_map(self, name: str, words: list[str], place: Place) -> None:
        found = match(words, "random * out-of *")
        if found and found[0] == "1" and found[1].isdigit() and int(found[1]) > 0:
            self.samplers[name] = (int(found[1]), place)
        elif words:
            self.samplers[name] = (None, place)
            self.log.unknown(place, " ".join(words), ["random 1 out-of"])
        else:
            self.samplers.setdefault(name, (None, place))

    def interface(self, name: str, words: list[str], place: Place) -> None:
        one = self.interfaces.setdefault(name, Interface(name, place, aliases_of(name), parent=parent_of(name)))
        bundle, vlan = match(words, "bundle id *"), match(words, "encapsulation dot1q *")
        if words[:1] == ["flow"]:
            self.use(name, words, place)
        elif words[:2] in (["ipv4", "unnumbered"], ["ipv6", "enable"]) or words[:3] == ["ipv4", "address", "dhcp"] \
                or words[:3] == ["ipv6", "address", "autoconfig"]:
            one.has |= {4 if words[0] == "ipv4" else 6}
        elif words[:2] in (["ipv4", "address"], ["ipv6", "address"]) and len(words) > 2:
            self.address(one, words[2:])
        elif "flow" in words and words[0] not in ("description", "!!"):
            self.log.unknown(place, " ".join(words), ["flow ipv4 monitor", "flow ipv6 monitor", "flow mpls monitor"])
        elif words[:1] == ["description"]:
            one.description = " ".join(words[1:])
        elif words[:1] == ["vrf"] and len(words) == 2:
            one.vrf = words[1]
        elif words == ["shutdown"]:
            one.is_shut = True
        elif vlan and vlan[0].isdigit():
            one.vlan = int(vlan[0])
        elif words[:2] == ["tunnel", "source"] and len(words) > 2:
            one.tunnel_source = words[2]
        elif words[:2] == ["tunnel", "destination"] and len(words) > 2:
            one.tunnel_destination = words[2]
        elif bundle:
            main = f"Bundle-Ether{bundle[0]}"
            members = self.interfaces.setdefault(main, Interface(main, place, aliases_of(main))).members
            members += [name] if name not in members else []

    def address(self, one: Interface, words: list[str]) -> None:
        text = f"{words[0]}/{words[1]}" if len(words) > 1 and re.match(r"[0-9]", words[1]) else words[0]
        try:
            found = str(ipaddress.ip_interface(text))
        except ValueError:
            return
        one.addresses += [found] if found not in one.addresses else []

    def use(self, name: str, words: list[str], place: Place) -> None:
        plain = match(words, "flow ipv4|ipv6|mpls monitor * ingress|egress")
        sampled = match(words, "flow ipv4|ipv6|mpls monitor * sampler * ingress|egress")
        if plain and len(plain) == 3:
            self.add_use(Use(name, plain[0], plain[1], "", plain[2], place))
        elif sampled and len(sampled) == 4:
            self.add_use(Use(name, sampled[0], sampled[1], sampled[2], sampled[3], place))
        else:
            self.log.unknown(place, " ".join(words), ["flow ipv4 monitor", "flow ipv6 monitor", "flow mpls monitor"])

    def add_use(self, use: Use) -> None:
        """Adds a monitor at an interface, once if a text has it twice."""
        self.uses.setdefault((use.interface, use.family, use.monitor, use.sampler, use.direction), use)

    def read(self) -> Device:
        close_subinterfaces(self.interfaces)
        self.bundles = bundles_of(self.interfaces, "Bundle-Ether")
        self.device.interfaces = list(self.interfaces.values())
        for name, one in self.exporters.items():
            self.exporter(name, one)
        for name, monitor in self.monitors.items():
            self.cache(name, monitor)
        self.points()
        return self.device

    def exporter(self, name: str, one: ExporterMap) -> None:
        if one.destination is None:
            self.log.note(one.place, f"{name} has no destination: what it exports is lost", exporters=(name,))
            return
        address, vrf, place = one.destination
        if one.port is None:
            self.log.wrong(place, f"exporter-map {name} has no `transport udp PORT`, so it is not known where it sends",
                           "add the port")
            return
        if vrf:
            self.log.note(place, f"the vrf {vrf} of the exporter is not followed", exporters=(name,))
        version, at = one.version or ("", one.place)
        if not version:
            self.log.premise(at, f"{name} has no version: it is taken to send NetFlow 9", "add `version ipfix`",
                             Topic.OTHER, None, (name,))
        elif version == "v9":
            self.log.note(at, "NetFlow 9 is not IPFIX: the audit is the same, but `once collect` refuses its messages",
                          "", 611, (name,))
        self.log.premise(at, "the length of its counters depends on platform and release: `once collect` refuses "
                         "counters of 4 octets (618), and "
                         "the document has 8", "look at its templates with `once-import template`", Topic.COUNTERS, 618,
                         (name,))
        where = Destination(destination_name(address, one.port), address, one.port, place, "udp", vrf, 10
                            if version == "ipfix" else 9)
        self.device.exporters.append(Exporter(name, [where], one.place, "parallel", self.source(one.source)))

    def source(self, text: str) -> str:
        """Returns the address of the interface that an exporter sends from."""
        interface = self.interfaces.get(text)
        if interface is None:
            return text if re.fullmatch(r"[0-9a-fA-F.:]+", text) else ""
        return interface.addresses[0].partition("/")[0] if interface.addresses else ""

    def cache(self, name: str, one: MonitorMap) -> None:
        exporters = [exporter for exporter, _ in one.exporters]
        for exporter, place in one.exporters:
            if exporter not in self.exporters:
                self.missing(place, "exporter-map", exporter, list(self.exporters))
        known = [exporter.name for exporter in self.device.exporters]
        kind = one.record[0] if one.record else []
        if one.record is None:
            self.log.wrong(one.place, f"monitor-map {name} has no record", "add `record ipv4` or `record ipv6`")
            return
        if kind[0] not in VERSIONS:
            if kind[0] != "mpls":
                self.log.unknown(one.record[1], f"record {' '.join(kind)}",
                                 ["record ipv4", "record ipv6", "record mpls"], exporters)
            return
        if len(kind) > 1:
            self.log.lost(one.record[1], f"which flow keys `record {' '.join(kind)}` has is not known; the document "
                          f"has those of `record {kind[0]}`",
                          f"use `record {kind[0]}`", Topic.UNKNOWN, None, exporters)
        if not exporters:
            self.log.note(one.place, f"{name} has no exporter: what it meters is exported nowhere")
        if one.kind == "permanent":
            self.log.premise(one.place, f"the counters of the permanent cache {name} begin anew after each export", "",
                             Topic.COUNTERS, None, exporters)
        self.device.caches.append(Cache(name, one.kind, fields(KEYS, VERSIONS[kind[0]], one.record[1]),
                                        [one for one in exporters if one in known],
                                        one.place, one.settings))
        self.log.premise(one.record[1], f"the flow keys of `record {kind[0]}` are taken to be addresses, ports, "
                         f"protocol and class of service, and "
                         "the interfaces, which are not axes", "", Topic.OTHER, None, exporters)

    def missing(self, place: Place, what: str, name: str, known: list[str]) -> None:
        near = difflib.get_close_matches(name, known, 1)
        self.log.wrong(place, f"there is no {what} {name}", f"is {near[0]} meant?" if near
                       else f"add the {what}, or take the line out")

    def points(self) -> None:
        groups: dict[tuple[str, str], list[Use]] = {}
        for one in self.uses.values():
            if self.is_usable(one):
                groups.setdefault((one.monitor, one.direction), []).append(one)
        for (monitor, direction), found in groups.items():
            version = VERSIONS[found[0].family]
            selection = filters.whole_family(monitor, version, monitor, found[0].place)
            for start in range(0, len(found), MOST_INTERFACES):
                part = found[start:start + MOST_INTERFACES]
                suffix = f" {start // MOST_INTERFACES + 1}" if start else ""
                rate = max(self.samplers.get(one.sampler, (1, one.place))[0] or 1 for one in part)
                self.device.points.append(Point(f"{monitor} {direction}{suffix}", [one.interface for one in part],
                                                DIRECTIONS[direction], [selection],
                                                part[0].place, [one.place for one in part], sampling(rate) if rate > 1
                                                else None))

    def is_usable(self, one: Use) -> bool:
        """Reports what is to be said about a monitor at an interface; returns whether it makes a point."""
        monitor = self.monitors.get(one.monitor)
        if monitor is None:
            self.missing(one.place, "monitor-map", one.monitor, list(self.monitors))
            return False
        exporters = [name for name, _ in monitor.exporters]
        if self.interfaces[one.interface].is_shut:
            self.log.note(one.place, f"{one.interface} is shut, and left out", exporters=exporters)
            return False
        kind = monitor.record[0][0] if monitor.record else ""
        if one.family == "mpls" or kind == "mpls":
            self.log.lost(one.place, "packets with labels: the document does not meter them",
                          "meter where packets have no labels yet", Topic.MPLS,
                          None, exporters)
            return False
        if kind != one.family:
            self.log.wrong(one.place, f"monitor-map {one.monitor} has a record of {kind or 'nothing'}, not of "
                           f"{one.family}",
                           "name a monitor of the family")
            return False
        self.sampler(one, exporters)
        if one.interface in self.bundles:
            self.log.premise(one.place, IN_A_BUNDLE.format(one.interface, self.bundles[one.interface]),
                             f"meter at {self.bundles[one.interface]}", Topic.OTHER, None, exporters)
        return any(cache.name == one.monitor for cache in self.device.caches)

    def sampler(self, one: Use, exporters: list[str]) -> None:
        if not one.sampler:
            self.log.premise(one.place, "without a sampler every packet is metered, where the platform allows it", "",
                             Topic.SAMPLER, None, exporters)
        elif one.sampler not in self.samplers:
            self.missing(one.place, "sampler-map", one.sampler, list(self.samplers))
        elif self.samplers[one.sampler][0] == 1:
            self.log.note(one.place, f"the sampler takes 1 out of 1 (line {self.samplers[one.sampler][1].line}): all "
                          f"packets", exporters=exporters)
        else:
            rate, place = self.samplers[one.sampler]
            self.log.sampler(one.place, str(rate) if rate else "N", exporters)


class CiscoXr:
    kind = "cisco-xr"
    title = "Cisco IOS-XR"
    how_to_get = "show running-config formal"
    certainty = "fairly"

    def detect(self, text: str) -> int:
        if re.search(r"(?m)^(flow (exporter|monitor)-map|sampler-map) \S", text):
            return 96
        return 80 if re.search(r"(?m)^!! IOS XR|^interface (Bundle-Ether|TenGigE|HundredGigE|MgmtEth)", text) else 0

    def read(self, name: str, sources: list[Source], options: Mapping[str, str]) -> Device:
        return _Reading(name, sources).read()


READER = CiscoXr()
