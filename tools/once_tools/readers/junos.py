"""Junos: inline-jflow with sampling at interfaces and in firewall filters, from `set` lines or text with braces."""
from __future__ import annotations

import re
from typing import Mapping

from once_tools.boxes import MOST_SELECTIONS, TooManyBoxes
from once_tools.model import Cache, Destination, Device, Direction, Exporter, Interface, Place, Point, Selection, Topic, Unusable
from once_tools.readers import filters
from once_tools.readers.closing import close_subinterfaces
from once_tools.readers.junos_config import FAMILIES, INHERITANCE, Collector, Instance, Sampling, Server
from once_tools.readers.junos_terms import TermText, UnreadCondition, region_of, samples_and_ends
from once_tools.readers.log import Log, sampling
from once_tools.readers.records import ADDRESSES, PORTS, destination_name, fields
from once_tools.readers.trees import Statement, braces, numbered, set_lines
from once_tools.source import Source

KEYS = (*ADDRESSES, "protocolIdentifier", *PORTS, "ipClassOfService")
VERSIONS = {"inet": 4, "inet6": 6}
DIRECTIONS = {"input": Direction.INGRESS, "output": Direction.EGRESS}
SET_LINE = re.compile(r"(?m)^\s*(set|deactivate)\s+\S+")
EDIT = re.compile(r"^\s*(insert|rename|copy|replace|wildcard)\s+\S+[^;{]*$")
MOST_INTERFACES = 256
TOP = ("system", "interfaces", "chassis", "services", "forwarding-options", "firewall", "policy-options",
       "routing-instances", "routing-options",
       "protocols", "groups", "apply-groups", "snmp", "security", "class-of-service", "vlans", "logical-systems",
       "access", "event-options")


def statements_of(source: Source) -> list[Statement]:
    """Returns the statements of a text of `set` lines or of braces."""
    return set_lines(source) if SET_LINE.search(source.text) else braces(source)


class _Reading:
    """Reads one router."""

    def __init__(self, name: str, sources: list[Source]) -> None:
        self.log = Log(name)
        self.device = Device(name, "junos", [one.name for one in sources], findings=self.log.findings)
        collector = Collector(self.log)
        statements = [one for source in sources for one in statements_of(source)]
        if not any(one.words[0] in TOP for one in statements):
            raise Unusable(sources[0].place(0), "has no statement of Junos",
                           "give the output of `show configuration | display set`")
        for one in statements:
            collector.take(one)
        collector.report_tables()
        for source in sources:
            self.report_edits(source)
        self.config = collector.config
        self.caches: set[str] = set()

    def report_edits(self, source: Source) -> None:
        """Reports commands that change a configuration, which no output of `display set` has."""
        for number, line in numbered(source):
            if EDIT.match(line):
                place = Place(source.name, number, line.strip())
                self.log.lost(place, "this command changes the configuration, and it is not applied here", INHERITANCE)

    def read(self) -> Device:
        self.device.hostname = self.config.hostname
        self.device.interfaces = self.interfaces()
        for one in self.device.interfaces:
            one.vrf = self.config.vrfs.get(one.name, one.vrf)
        for instance in self.config.instances.values():
            self.instance(instance)
        self.points()
        self.report_rest()
        return self.device

    def interfaces(self) -> list[Interface]:
        """Returns the units, and the ports without units. A port with units carries packets of its units alone, so that its
        name stands for them; they have its description and its members, and are shut with it."""
        known = self.config.interfaces
        close_subinterfaces(known)
        units = [one for one in known.values() if one.parent]
        for one in units:
            port = known.get(one.parent)
            if port:
                one.description = one.description or port.description
                one.members += [name for name in port.members if name not in one.members]
        with_units = {one.parent for one in units}
        return [one for one in known.values() if one.name not in with_units]

    def instance(self, one: Instance) -> None:
        """Adds the exporters and caches of an instance."""
        if "" in one.disabled:
            self.log.note(one.disabled[""], "the instance is disabled and left out")
            return
        for family, servers in one.servers.items():
            name = f"{one.name} {family}"
            if family in one.disabled:
                self.log.note(one.disabled[family], "the family is disabled and left out")
                continue
            self.device.exporters.append(self.exporter(one, family, list(servers.values())))
            if family not in FAMILIES:
                self.log.lost(one.place, f"family {family}: its packets are not those of IP alone, and the document "
                              f"does not meter them", "",
                              Topic.MPLS, None, (name,))
                continue
            self.device.caches.append(Cache(name, "timeout", fields(KEYS, VERSIONS[family], one.place), [name],
                                            one.place,
                                            self.timeouts(list(servers.values()))))
            self.caches.add(name)
        self.rate(one, [f"{one.name} {family}" for family in one.servers])
        self.room(one)

    def exporter(self, one: Instance, family: str, servers: list[Server]) -> Exporter:
        name = f"{one.name} {family}"
        found = Exporter(name, [], servers[0].place, "parallel", one.sources.get(family, servers[0].source))
        for server in servers:
            if server.port is None:
                raise Unusable(server.place, f"flow-server {server.address} has no port", "set a port")
            self.template(one, family, server)
            found.destinations.append(Destination(destination_name(server.address, server.port), server.address,
                                                  server.port, server.place, "udp",
                                                  server.routing_instance, server.version or 10))
        for server in servers[1:]:
            self.log.note(server.place, f"this server and that of line {servers[0].place.line} both get each record",
                          exporters=(name,))
        return found

    def template(self, one: Instance, family: str, server: Server) -> None:
        """Reports what the template or version of a server means."""
        name = (f"{one.name} {family}",)
        if server.version is None:
            self.log.lost(server.place, f"flow-server {server.address} has neither a template nor a version, so it is "
                          f"not known what it is sent",
                          "set version-ipfix template NAME", Topic.UNKNOWN, None, name)
        elif server.version in (5, 8):
            self.log.note(server.place, f"NetFlow {server.version} is not IPFIX, and `once collect` refuses its "
                          f"messages", "", 611, name)
        elif family in FAMILIES:
            template = self.config.templates.get((server.version, server.template))
            if template is None:
                self.log.lost(server.place, f"there is no template {server.template} in services flow-monitoring",
                              "correct its name",
                              Topic.UNKNOWN, None, name)
            elif template.family != family:
                self.log.lost(server.place, f"template {server.template} is of family {template.family or 'none'}, not "
                              f"of {family}",
                              "name a template of the family", Topic.UNKNOWN, None, name)
            else:
                self.log.note(template.place, f"the flow keys of template {template.name} are fixed: addresses, ports, "
                              f"protocol, class of service, "
                              "and the interface, which is not an axis; counters have 8 octets", exporters=name)
            if server.version == 9:
                self.log.note(server.place, "NetFlow 9 is not IPFIX: the audit is the same, but `once collect` refuses "
                              "its messages", "", 611, name)

    def timeouts(self, servers: list[Server]) -> dict[str, int]:
        template = self.config.templates.get((servers[0].version or 0, servers[0].template))
        return dict(template.timeouts) if template else {}

    def rate(self, one: Instance, exporters: list[str]) -> None:
        outside = [f"{one.name} {family}" for family in one.servers if family not in one.inline]
        if outside:
            self.log.lost(one.place, f"without inline-jflow {' and '.join(outside)} is sampled by the routing engine "
                          f"or a services card, which takes "
                          "a limited number of packets a second, and a total over a sample is not exact; the document "
                          "meters all packets",
                          "use an instance with inline-jflow", Topic.SAMPLER, 108, outside)
        if one.rate is None:
            self.log.lost(one.place, "`input rate` is not set, and its default is not known here; the document meters "
                          "all packets",
                          "set input rate 1", Topic.SAMPLER, 108, exporters)
        elif one.rate[0] > 1:
            self.log.sampler(one.rate[1], str(one.rate[0]), exporters)
        else:
            self.log.note(one.rate[1], "rate 1: all packets", exporters=exporters)
        for place in one.limits:
            self.log.lost(place, "only a limited number of packets a second is sampled, and a total over a sample is not exact; "
                          "the document meters all "
                          "packets", "take the limit out", Topic.SAMPLER, 108, exporters)

    def room(self, one: Instance) -> None:
        """Says that inline-jflow meters the flows that its table has room for."""
        exporters = [f"{one.name} {family}" for family in one.servers if family in one.inline]
        sizes = self.config.table_sizes
        for place in (sizes or [one.place]) if exporters else []:
            self.log.premise(place, "packets of flows that the flow table has no room for are not metered, and the document "
                             "counts them" + ("" if sizes else "; no flow-table-size is in the text"),
                             "look for flow creation failures in `show services accounting errors inline-jflow`",
                             exporters=exporters)

    def points(self) -> None:
        """Adds a point for each instance, family and direction, and for each chain of filters that samples."""
        groups: dict[tuple[str, str, str, tuple[str, ...]], list[Sampling]] = {}
        for one in self.config.samplings:
            if one.family not in FAMILIES or one.filters and not self.filter_samples(one):
                self.other_family(one)
                continue
            name = self.instance_of(one)
            if name is not None:
                groups.setdefault((name, one.family, one.direction, tuple(one.filters)), []).append(one)
        for (name, family, direction, chain), found in groups.items():
            for start in range(0, len(found), MOST_INTERFACES):
                part = found[start:start + MOST_INTERFACES]
                suffix = f" {start // MOST_INTERFACES + 1}" if start else ""
                self.point(name, family, direction, list(chain), part, suffix)

    def other_family(self, one: Sampling) -> None:
        if one.family not in FAMILIES and not one.filters:
            exporters = [exporter.name for exporter in self.device.exporters
                         if exporter.name.endswith(f" {one.family}")]
            self.log.lost(one.place, f"family {one.family}: its packets are not those of IP alone, and the document "
                          f"does not meter them", "",
                          Topic.MPLS, None, exporters)

    def filter_samples(self, one: Sampling) -> bool:
        """Returns whether a chain of filters samples; reports a filter that is missing."""
        found = False
        for name in one.filters:
            terms = self.config.filters.get((one.family, name), self.config.filters.get(("any", name)))
            if terms is None:
                self.log.lost(one.place, f"there is no filter {name} of family {one.family}, so it is not known what "
                              f"it samples", "correct its name",
                              Topic.FILTER)
            else:
                found = found or any(action[:1] == ["sample"] for term in terms.values() for action, _ in term.actions)
        return found

    def instance_of(self, one: Sampling) -> str | None:
        """Returns the instance whose meter sees a unit, None if there is none."""
        able = [name for name in self.config.instances if f"{name} {one.family}" in self.caches]
        if not able:
            self.log.warning(one.place, f"no sampling instance exports family {one.family}: nothing counts these "
                             f"packets",
                             f"set forwarding-options sampling instance NAME family {one.family} output")
            return None
        if not self.config.chassis:
            self.log.premise(one.place, f"no `chassis fpc N sampling-instance` is in the text: instance {able[0]} is "
                             f"taken to run here", "",
                             Topic.OTHER, None, (f"{able[0]} {one.family}",))
            return able[0]
        names = {self.config.chassis[slot][0] if slot in self.config.chassis else "" for slot in self.slots(one.unit)}
        if names == set() and len(able) == 1:
            return able[0]
        if len(names) == 1 and next(iter(names)) in able:
            return next(iter(names))
        if "" in names or not names & set(able):
            self.log.warning(one.place, "the FPC of this interface has no sampling instance of the family: nothing "
                             "counts these packets",
                             "set chassis fpc N sampling-instance NAME")
            return None
        self.log.lost(one.place, f"members of {one.unit} are at FPCs with different instances; the document has "
                      f"{able[0]}", "use one instance",
                      Topic.OTHER)
        return able[0]

    def slots(self, unit: str) -> set[int]:
        """Returns the FPCs of a unit's port, or of the members of its bundle; none for interfaces without a place."""
        port = unit.partition(".")[0]
        interface = self.config.interfaces.get(port)
        ports = interface.members if interface and interface.members else [port]
        found = [re.match(r"[a-z]+-([0-9]+)/", name) for name in ports]
        return {int(one[1]) for one in found if one}

    def point(self, name: str, family: str, direction: str, chain: list[str], found: list[Sampling],
              suffix: str) -> None:
        cache = f"{name} {family}"
        version = VERSIONS[family]
        if chain:
            selections = self.filtered(chain, family, cache, found[0].place)
        else:
            selections = [filters.whole_family(cache, version, cache, found[0].place)]
        rate = self.config.instances[name].rate
        title = " ".join(chain) if chain else name
        for other in self.device.points:
            if other.name == f"{title} {family} {direction}{suffix}":
                suffix += " 2"
        self.device.points.append(Point(f"{title} {family} {direction}{suffix}", [one.unit for one in found],
                                        DIRECTIONS[direction], selections,
                                        found[0].place, [one.place for one in found],
                                        sampling(rate[0]) if rate and rate[0] > 1 else None))

    def filtered(self, chain: list[str], family: str, cache: str, place: Place) -> list[Selection]:
        """Returns the selection processes of the packets that a chain of filters samples."""
        version = VERSIONS[family]
        try:
            terms = [self.term(name, text, version, place) for name in chain for text in self.terms(family, name)]
            found: list[Selection] = []
            for one in filters.sampled(terms, version):
                more = filters.selections(one.term.name, one.region, cache, one.term.place)
                found += more
                self.report_term(one, len(more), cache)
            if len(found) > MOST_SELECTIONS:
                raise TooManyBoxes(len(found))
            return found
        except UnreadCondition as error:
            self.log.lost(error.place, f"{error.why}; the document meters all packets of the family at the interfaces "
                          f"with filter "
                          f"{' '.join(chain)}", "sample by addresses, protocols and ports", Topic.FILTER, None,
                          (cache,))
        except TooManyBoxes as error:
            says, todo = filters.too_many(error)
            self.log.lost(place, says, todo, Topic.FILTER, None, (cache,))
        return [filters.whole_family(cache, version, cache, place)]

    def terms(self, family: str, name: str) -> list[TermText]:
        key = (family, name) if (family, name) in self.config.filters else ("any", name)
        if key in self.config.filter_faults:
            raise UnreadCondition(self.config.filter_faults[key], "this statement of a filter is not known here")
        return list(self.config.filters[key].values())

    def term(self, name: str, text: TermText, version: int, place: Place) -> filters.Term:
        premises: list[tuple[Place, str]] = []
        samples, ends = samples_and_ends(text)
        region = region_of(text, version, self.config.prefix_lists, premises)
        for at, says in premises:
            self.log.premise(at, says, "add 0.0.0.0/0 to the condition", Topic.FILTER)
        where = text.conditions[0][1] if text.conditions else text.place
        return filters.Term(f"{name} {text.name}", region, samples, ends, where)

    def report_term(self, one: filters.Sampled, count: int, cache: str) -> None:
        for earlier in one.cut_by:
            self.log.note(earlier.place, f"{earlier.name.rpartition(' ')[2]} takes packets before term "
                          f"{one.term.name.rpartition(' ')[2]} "
                          f"samples: {count} selection processes are left of that term", exporters=(cache,))

    def report_rest(self) -> None:
        sampled = {(one.unit, one.family) for one in self.config.samplings if not one.filters}
        chains = [one for one in self.config.samplings if one.filters and one.family in FAMILIES
                  and self.filter_samples(one)]
        for one in chains:
            if any((other.unit, other.family, other.direction) == (one.unit, one.family, one.direction)
                   and not other.filters for other in self.config.samplings):
                self.log.warning(one.place, f"{one.unit} has `sampling {one.direction}` too: the document counts a "
                                 f"packet twice that both take; "
                                 "whether the router does is not known", "keep one of them")
        metered = {unit for unit, _ in sampled} | {one.unit for one in chains}
        for (unit, family), place in self.config.families.items():
            covered = sampled | {(one.unit, one.family) for one in chains}
            if unit in metered and family in FAMILIES and (unit, family) not in covered:
                version = VERSIONS[family]
                self.log.note(place, f"an address of family {family} without `family {family} sampling`: packets of "
                              f"IPv{version} are metered nowhere "
                              "here")


class Junos:
    kind = "junos"
    title = "Junos with inline-jflow"
    how_to_get = "show configuration | display inheritance no-comments | display set"
    certainty = "certain"

    def detect(self, text: str) -> int:
        if re.search(r"(?m)^set (forwarding-options sampling|services flow-monitoring|chassis fpc)\s", text):
            return 98
        if re.search(r"(?m)^set (interfaces \S+ unit|firewall family|routing-options|policy-options)\s", text):
            return 70
        curly = re.search(r"(?m)^(forwarding-options|services|interfaces|chassis|firewall) \{", text)
        return (95 if re.search(r"\b(sampling|flow-monitoring)\s*\{", text) else 60) if curly else 0

    def read(self, name: str, sources: list[Source], options: Mapping[str, str]) -> Device:
        return _Reading(name, sources).read()


READER = Junos()
