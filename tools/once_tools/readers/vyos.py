"""VyOS 1.3 and 1.4: flow accounting, which is pmacct's uacctd, from `show configuration commands` or config.boot."""
from __future__ import annotations

import re
from dataclasses import dataclass, field
from typing import Mapping

from once_tools.model import Cache, Destination, Device, Direction, Exporter, Grade, Interface, Place, Point, Topic, Unusable
from once_tools.readers import filters
from once_tools.readers.closing import bundles_of, close_subinterfaces
from once_tools.readers.log import Log, sampling
from once_tools.readers.records import SEVEN, destination_name, fields
from once_tools.readers.statements import match
from once_tools.readers.trees import Statement, braced_lines, numbered, set_lines
from once_tools.source import Source

HARMLESS = ("disable-imt", "syslog-facility")
FLOW_WORDS = {"flow-accounting", "netflow"}
# The sections of config.boot that are read; without one of them a text in braces is of another kind.
SECTIONS = {"interfaces", "system", "nat", "protocols", "service"}
BRACED = re.compile(r"(?m)^\s*(interfaces|system|nat|protocols|service)\s*\{\s*$")
USUAL_LENGTH = 128
EDIT = re.compile(r"\s*(edit|up|top|rename|copy|load|merge|rollback)\b")
TIMEOUTS = {"max-active-life": "activeTimeout", "flow-generic": "idleTimeout"}
OTHER_TIMEOUTS = ("expiry-interval", "icmp", "tcp-fin", "tcp-generic", "tcp-rst", "udp")
KNOWN = ["interface", "enable-egress", "netflow server", "netflow version", "netflow sampling-rate",
         "netflow engine-id", "netflow max-flows",
         "netflow source-ip", "netflow source-address", "netflow timeout", *HARMLESS]


@dataclass
class Server:
    address: str
    place: Place
    port: int = 2055
    source: str = ""


@dataclass
class Rule:
    """A rule of NAT."""

    kind: str
    number: str
    place: Place
    interface: str = ""
    source: str = ""
    translation: str = ""
    is_disabled: bool = False
    excludes: bool = False


@dataclass
class Accounting:
    """What flow accounting says."""

    interfaces: dict[str, Place] = field(default_factory=dict)
    servers: dict[str, Server] = field(default_factory=dict)
    version: tuple[str, Place] | None = None
    rate: tuple[int, Place] | None = None
    egress: Place | None = None
    settings: dict[str, int] = field(default_factory=dict)
    domain: int = 0
    source: str = ""


def statements_of(source: Source) -> list[Statement]:
    """Returns the statements of a text of `set` lines or of sections in braces."""
    return braced_lines(source) if BRACED.search(source.text) else set_lines(source)


class _Reading:
    """Reads one router."""

    def __init__(self, name: str, sources: list[Source]) -> None:
        self.log = Log(name)
        self.device = Device(name, "vyos", [one.name for one in sources], findings=self.log.findings)
        self.accounting = Accounting()
        self.interfaces: dict[str, Interface] = {}
        self.rules: dict[tuple[str, str], Rule] = {}
        lines = [one for source in sources for one in self.statements(source)]
        if not lines:
            raise Unusable(sources[0].place(0), "has no line that begins with `set`, and no section in braces",
                           "give the output of `show configuration commands`, or config.boot")
        for one in lines:
            self.take(Statement(tuple(word.strip("'") for word in one.words), one.place))

    def statements(self, source: Source) -> list[Statement]:
        """Returns the statements of `set` lines, or of sections in braces. A `set` line that is deactivated is none."""
        found = statements_of(source)
        if BRACED.search(source.text):
            return found if any(one.words[0] in SECTIONS for one in found) else []
        self.report_edits(source)
        for one in found:
            if one.inactive and FLOW_WORDS & set(one.words):
                self.log.note(one.place, "this is deactivated: not in force, and left out")
        return [one for one in found if not one.inactive]

    def report_edits(self, source: Source) -> None:
        """Reports commands that change a configuration, which no output of `show configuration commands` has."""
        for number, line in numbered(source):
            if EDIT.match(line):
                self.log.lost(Place(source.name, number, line.strip()), "this command changes the configuration, and it is not "
                              "applied here", "give the output of `show configuration commands`", Topic.UNKNOWN)

    def take(self, one: Statement) -> None:
        flow = match(one.words, "system flow-accounting")
        host = match(one.words, "system host-name *")
        interface = match(one.words, "interfaces * *")
        if flow is not None:
            self.flow(flow, one.place)
        elif host:
            self.device.hostname = host[0]
        elif interface:
            self.interface(interface[1], interface[2:], one.place)
        elif one.words[0] in ("nat", "nat66", "nat64"):
            self.nat(one.words[0], list(one.words[1:]), one.place)
        elif match(one.words, "system sflow") is not None:
            self.log.note(one.place, "sFlow sends samples of packets and no flow records")
        elif "flow-accounting" in one.words or "netflow" in one.words or "ipfix" in one.words:
            self.log.unknown(one.place, " ".join(one.words[:2]), ["system flow-accounting"])

    def flow(self, words: list[str], place: Place) -> None:
        """Takes a statement of flow accounting."""
        known = self.accounting
        if words[:1] == ["interface"] and len(words) == 2:
            known.interfaces.setdefault(words[1], place)
        elif words == ["enable-egress"]:
            known.egress = place
        elif words[:1] == ["sflow"]:
            self.log.note(place, "sFlow sends samples of packets and no flow records")
        elif words[:1] == ["netflow"]:
            self.netflow(words[1:], place)
        elif words[:1] == ["packet-length"] and len(words) == 2 and words[1].isdigit():
            if int(words[1]) < USUAL_LENGTH:
                self.log.lost(place, "packets are captured in part: where headers are cut, ports are not seen",
                              f"write {USUAL_LENGTH} or more, or leave it out", Topic.OTHER)
        elif words[:1] == ["buffer-size"] and len(words) == 2 and words[1].isdigit():
            self.log.note(place, f"packets wait in a buffer of {words[1]} MB for each server: those that come while it is full "
                          "are lost")
        elif words and words[0] not in HARMLESS:
            self.log.unknown(place, " ".join(words[:2]), KNOWN)

    def netflow(self, words: list[str], place: Place) -> None:
        known = self.accounting
        number = int(words[1]) if len(words) == 2 and re.fullmatch("[0-9]{1,10}", words[1]) else None
        word = words[0] if words else ""
        if word == "server" and len(words) > 1:
            self.server(words[1:], place)
        elif word == "version" and len(words) == 2 and words[1] in ("5", "9", "10"):
            known.version = (words[1], place)
        elif word == "sampling-rate" and number is not None:
            known.rate = (number, place)
        elif word == "engine-id" and number is not None:
            known.domain = number
        elif word == "max-flows" and number:
            known.settings["maxFlows"] = number
        elif word in ("source-ip", "source-address") and len(words) == 2:
            known.source = words[1]
        elif word == "timeout" and len(words) == 3 and words[2].isdigit() and words[1] in (*TIMEOUTS, *OTHER_TIMEOUTS):
            if words[1] in TIMEOUTS:
                known.settings[TIMEOUTS[words[1]]] = int(words[2])
        else:
            self.log.unknown(place, " ".join(["netflow", *words[:2]]), KNOWN)

    def server(self, words: list[str], place: Place) -> None:
        one = self.accounting.servers.setdefault(words[0], Server(words[0], place))
        port = match(words, "* port *")
        if port and len(port) == 2 and port[1].isdigit() and 0 < int(port[1]) < 65536:
            one.port, one.place = int(port[1]), place
        elif words[1:2] == ["source-address"] and len(words) == 3:
            one.source = words[2]
        elif len(words) > 1:
            self.log.unknown(place, f"netflow server {' '.join(words)}", [f"netflow server {words[0]} port"])

    def interface(self, name: str, words: list[str], place: Place) -> None:
        """Takes a statement of an interface, or of a VLAN below it."""
        one = self.interfaces.setdefault(name, Interface(name, place))
        while vlan := match(words, "vif|vif-s|vif-c *"):
            above, name, words = name, f"{name}.{vlan[1]}", vlan[2:]
            one = self.interfaces.setdefault(name, Interface(name, place, parent=above))
            one.vlan = int(vlan[1]) if vlan[1].isdigit() else None
        if words[:1] == ["address"] and len(words) == 2 and "/" in words[1]:
            one.addresses += [words[1]] if words[1] not in one.addresses else []
        elif words in (["address", "dhcp"], ["address", "dhcpv6"]) or words[:2] == ["ipv6", "address"]:
            one.has |= {4 if words[1] == "dhcp" else 6}
        elif words[:1] == ["description"]:
            one.description = " ".join(words[1:]).strip("'")
        elif words == ["disable"]:
            one.is_shut = True
        elif words[:1] == ["vrf"] and len(words) == 2:
            one.vrf = words[1]
        elif words[:1] == ["source-address"] and len(words) == 2:
            one.tunnel_source = words[1]
        elif words[:1] == ["remote"] and len(words) == 2:
            one.tunnel_destination = words[1]
        elif words[:2] == ["member", "interface"] and len(words) > 2:
            one.members += [words[2]] if words[2] not in one.members else []

    def nat(self, what: str, words: list[str], place: Place) -> None:
        found = match(words, "source|destination|static rule *")
        if not found:
            if words:
                self.log.unknown(place, " ".join([what, *words[:1]]), ["nat source", "nat destination", "nat static"])
            return
        rule = self.rules.setdefault((f"{what} {found[0]}", found[1]), Rule(f"{what} {found[0]}", found[1], place))
        rest = found[2:]
        if rest[:1] in (["outbound-interface"], ["inbound-interface"]) and len(rest) > 1:
            rule.interface, rule.place = rest[-1], place
        elif rest[:2] == ["source", "address"] and len(rest) > 2:
            rule.source = rest[2]
        elif rest[:2] == ["translation", "address"] and len(rest) > 2 and rest[2] != "masquerade":
            rule.translation = rest[2]
        elif rest == ["disable"]:
            rule.is_disabled = True
        elif rest == ["exclude"]:
            rule.excludes = True

    def read(self) -> Device:
        close_subinterfaces(self.interfaces)
        self.device.interfaces = list(self.interfaces.values())
        known = self.accounting
        if known.interfaces and known.servers:
            self.meter()
            self.report_nat()
            self.report_vlans()
        elif known.interfaces or known.servers:
            place = next(iter(known.interfaces.values()), None) or next(iter(known.servers.values())).place
            what = "no netflow server: nothing is exported" if known.interfaces else "no interface: nothing is metered"
            self.log.note(place, f"flow-accounting has {what}")
        return self.device

    def meter(self) -> None:
        """Adds the point, and for each server a cache of each version of IP and an exporter."""
        known = self.accounting
        names = self.metered()
        if not names:
            return
        version = known.version[0] if known.version else "9"
        place, exporters = names[0][1], list(known.servers)
        selections = []
        for server in known.servers.values():
            self.device.exporters.append(self.exporter(server, int(version)))
            for family in (4,) if version == "5" else (4, 6):
                cache = f"{server.address} IPv{family}"
                self.device.caches.append(Cache(cache, "timeout", fields(SEVEN, family, server.place), [server.address],
                                                server.place,
                                                dict(known.settings)))
                selections.append(filters.whole_family(cache, family, cache, server.place))
        direction = Direction.BOTH if known.egress else Direction.INGRESS
        rate = known.rate[0] if known.rate else 1
        self.device.points.append(Point("flow-accounting", [name for name, _ in names], direction, selections, place,
                                        [at for _, at in names],
                                        sampling(rate) if rate > 1 else None, known.domain))
        self.report_meter(exporters, len(names))

    def metered(self) -> list[tuple[str, Place]]:
        """Returns the interfaces of flow accounting that are not disabled."""
        found = []
        bundled = bundles_of(self.interfaces, "b")  # bond0, br0
        for name, place in self.accounting.interfaces.items():
            interface = self.interfaces.get(name)
            if interface is None:
                self.log.lost(place, f"interface {name} is not in this configuration", "correct its name",
                              Topic.UNKNOWN)
                interface = self.interfaces[name] = Interface(name, place)
                self.device.interfaces.append(interface)
            if interface.is_shut:
                self.log.note(place, f"{name} is disabled, and left out")
            elif name in bundled:
                self.log.premise(place, f"{name} is a member of {bundled[name]}, at which IP has its packets: it is taken to meter "
                                 "nothing", f"meter at {bundled[name]}", Topic.OTHER, None, list(self.accounting.servers))
            else:
                found.append((name, place))
        return found

    def exporter(self, server: Server, version: int) -> Exporter:
        where = Destination(destination_name(server.address, server.port), server.address, server.port, server.place,
                            "udp", "", version)
        return Exporter(server.address, [where], server.place, "parallel", server.source or self.accounting.source)

    def report_meter(self, exporters: list[str], count: int) -> None:
        known, log = self.accounting, self.log
        first = next(iter(known.interfaces.values()))
        if known.egress and count > 1:
            log.warning(known.egress, "packets are metered where they come in and where they leave, so each that is "
                        "forwarded between two of the "
                        "interfaces counts twice", "take enable-egress out", exporters)
        elif known.egress:
            log.note(known.egress, "packets are metered where they come in and where they leave", exporters=exporters)
        else:
            log.note(first, "packets are metered where they come in, as there is no enable-egress", exporters=exporters)
        servers = list(known.servers.values())
        for server in servers[1:]:
            log.note(server.place, f"this server and that of line {servers[0].place.line} both get each record",
                     exporters=(server.address,))
        if known.version is None:
            log.premise(servers[0].place, "no netflow version is set: NetFlow 9 is taken to be sent", "set version 10",
                        Topic.OTHER, None, exporters)
        elif known.version[0] != "10":
            log.note(known.version[1], f"NetFlow {known.version[0]} is not IPFIX: the audit is the same, but `once "
                     f"collect` refuses its messages",
                     "set version 10", 611, exporters)
        if known.version and known.version[0] == "5":
            log.note(known.version[1], "NetFlow 5 has no IPv6: packets of IPv6 are metered nowhere",
                     exporters=exporters)
        if known.rate and known.rate[0] > 1:
            log.sampler(known.rate[1], str(known.rate[0]), exporters)

    def report_nat(self) -> None:
        exporters = list(self.accounting.servers)
        for rule in self.rules.values():
            if rule.is_disabled:
                self.note_nat(rule, "is disabled")
                continue
            if rule.excludes:
                self.note_nat(rule, "excludes packets from translation")
                continue
            who = f"packets of {rule.source}" if rule.source else "packets that it translates"
            where = rule.interface or "it"
            if rule.kind.endswith(" source") and self.is_beyond_meters(rule.interface):
                self.note_nat(rule, f"gives packets other addresses beyond {where} alone, which is not metered: records have the "
                              "addresses before the translation")
                continue
            if rule.kind.endswith(" source"):
                source = f"the source {rule.translation}" if rule.translation else "another source"
                back = rule.translation or f"the address of {where}"
                says = (f"{rule.kind} rule {rule.number}: beyond {where} {who} have {source}, and packets that come back "
                        f"have {back} as their destination, where they are metered: a report by destination counts them "
                        "under that address")
            else:
                says = (f"{rule.kind} rule {rule.number}: packets have another destination beyond this router than "
                        f"where they are metered: a "
                        "report by address counts them under the one that the meter sees")
            self.log.lost(rule.place, says, "report by addresses that are not translated, or accept this", Topic.NAT,
                          None, exporters)

    def note_nat(self, rule: Rule, says: str) -> None:
        self.log.add(Grade.NOTE, rule.place, f"{rule.kind} rule {rule.number} {says}", topic=Topic.NAT,
                     exporters=self.accounting.servers)

    def is_beyond_meters(self, interface: str) -> bool:
        """Returns whether packets with translated sources, and those that come back to them, cross no metered interface in a
        metered direction: they cross the interface that they leave by, and come back there."""
        return bool(interface) and interface in self.interfaces and not self.accounting.egress \
            and interface not in self.accounting.interfaces

    def report_vlans(self) -> None:
        listed = self.accounting.interfaces
        for one in self.interfaces.values():
            if one.parent in listed and one.name not in listed:
                self.log.premise(one.place, f"{one.name} is not among the interfaces of flow-accounting; whether "
                                 f"{one.parent} sees its packets is not known, and the document has them metered nowhere",
                                 f"add {one.name} to flow-accounting", exporters=self.accounting.servers)


class Vyos:
    kind = "vyos"
    title = "VyOS 1.3 and 1.4"
    how_to_get = "show configuration commands, or the file /config/config.boot"
    certainty = "fairly"

    def detect(self, text: str) -> int:
        if re.search(r"(?m)^set system flow-accounting\s|^ +flow-accounting \{", text):
            return 99
        if re.search(r"(?m)^// vyos-config-version", text) or re.search(r"(?m)^ +(ethernet|bonding) \S+ \{\s*$", text):
            return 85
        return 85 if re.search(r"(?m)^set interfaces (ethernet|bonding|loopback) \S+ (address|description|hw-id)",
                               text) else 0

    def read(self, name: str, sources: list[Source], options: Mapping[str, str]) -> Device:
        return _Reading(name, sources).read()


READER = Vyos()
