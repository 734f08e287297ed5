"""What a configuration of Junos says about sampling, collected statement by statement."""
from __future__ import annotations

from dataclasses import dataclass, field

from once_tools.model import Interface, Place, Topic
from once_tools.readers.junos_terms import TermText
from once_tools.readers.log import Log
from once_tools.readers.statements import match
from once_tools.readers.trees import Statement, Words

FAMILIES = ("inet", "inet6")
INHERITANCE = "send the output of `show configuration | display inheritance no-comments | display set`"
FLOW_WORDS = {"sampling", "flow-server", "inline-jflow", "flow-monitoring", "sampling-instance", "jflow-log", "cflowd",
              "flow-export-destination", "inline-monitoring", "inline-monitoring-instance"}


@dataclass
class Server:
    """A flow server with the template or version that it is sent."""

    address: str
    place: Place
    port: int | None = None
    version: int | None = None
    template: str = ""
    routing_instance: str = ""
    source: str = ""


@dataclass
class Instance:
    """A sampling instance. Families are by name, each with its servers in order."""

    name: str
    place: Place
    rate: tuple[int, Place] | None = None
    limits: list[Place] = field(default_factory=list)
    servers: dict[str, dict[str, Server]] = field(default_factory=dict)
    sources: dict[str, str] = field(default_factory=dict)
    inline: set[str] = field(default_factory=set)
    disabled: dict[str, Place] = field(default_factory=dict)


@dataclass
class Template:
    """A template of services flow-monitoring."""

    name: str
    place: Place
    version: int
    family: str = ""
    timeouts: dict[str, int] = field(default_factory=dict)


@dataclass
class Sampling:
    """A statement that samples at a unit: `filters` is empty for `sampling input`, else the filters in order."""

    unit: str
    family: str
    direction: str
    place: Place
    filters: list[str] = field(default_factory=list)


@dataclass
class Config:
    """Everything of a configuration that bears on what is metered."""

    hostname: str = ""
    interfaces: dict[str, Interface] = field(default_factory=dict)
    families: dict[tuple[str, str], Place] = field(default_factory=dict)
    samplings: list[Sampling] = field(default_factory=list)
    instances: dict[str, Instance] = field(default_factory=dict)
    templates: dict[tuple[int, str], Template] = field(default_factory=dict)
    chassis: dict[int, tuple[str, Place]] = field(default_factory=dict)
    table_sizes: list[Place] = field(default_factory=list)
    filters: dict[tuple[str, str], dict[str, TermText]] = field(default_factory=dict)
    filter_faults: dict[tuple[str, str], Place] = field(default_factory=dict)
    prefix_lists: dict[str, list[str]] = field(default_factory=dict)
    vrfs: dict[str, str] = field(default_factory=dict)


class Collector:
    """Collects statements into a Config, and reports those of flow sections that it does not know."""

    def __init__(self, log: Log) -> None:
        self.log, self.config = log, Config()
        self.tables: list[tuple[str, str, Place]] = []
        self.sampled: set[tuple[str, ...]] = set()

    def report_tables(self) -> None:
        """Reports filters of forwarding tables that sample, and those that are applied to a unit for all families."""
        for family, name, place in self.tables:
            terms = self.config.filters.get((family, name), self.config.filters.get(("any", name), {}))
            if not terms or any(action[:1] == ["sample"] for one in terms.values() for action, _ in one.actions):
                self.log.lost(place, "the filter samples packets of many interfaces, or is not there, and the document does "
                              "not have it", "sample at interfaces", Topic.FILTER)

    def take(self, one: Statement) -> None:
        words = one.words
        if one.inactive:
            if FLOW_WORDS & set(words) or words[:1] == ("firewall",):
                self.log.note(one.place, "this is deactivated: not in force, and left out")
            return
        handler = {"system": self.system, "interfaces": self.interface, "chassis": self.chassis,
                   "services": self.services,
                   "forwarding-options": self.forwarding, "firewall": self.firewall, "policy-options": self.policy,
                   "routing-instances": self.routing}.get(words[0])
        if "apply-groups" in words or words[0] == "groups" or words[:2] == ("interfaces", "interface-range"):
            if words[0] != "groups" or FLOW_WORDS & set(words):
                self.log.lost(one.place, "groups and ranges are not resolved, so what they bring is not in the "
                              "document", INHERITANCE)
        elif handler is not None:
            handler(words[1:], one.place)
        elif FLOW_WORDS & set(words) or words[-2:] == ("then", "sample"):
            self.log.unknown(one.place, words[0])

    def system(self, words: Words, place: Place) -> None:
        found = match(words, "host-name *")
        self.config.hostname = found[0] if found else self.config.hostname

    def routing(self, words: Words, place: Place) -> None:
        found = match(words, "* interface *")
        if found:
            self.config.vrfs[found[1]] = found[0]
        elif match(words, "* forwarding-options"):
            self.forwarding(words[2:], place)
        elif FLOW_WORDS & set(words):
            self.log.unknown(place, " ".join(words[1:3]))

    def policy(self, words: Words, place: Place) -> None:
        found = match(words, "prefix-list *")
        if found and len(found) > 1:
            self.config.prefix_lists.setdefault(found[0], []).append(found[1] if found[1] != "apply-path"
                                                                     else "apply-path")

    def chassis(self, words: Words, place: Place) -> None:
        if "flow-table-size" in words:
            self.config.table_sizes.append(place)
        if "sampling-instance" not in words:
            return
        found = match(words, "fpc * sampling-instance *")
        if found and found[0].isdigit() and len(found) == 2:
            self.config.chassis[int(found[0])] = (found[1], place)
        else:
            self.log.unknown(place, " ".join(words), ["fpc"])

    def named(self, name: str, place: Place) -> Interface:
        return self.config.interfaces.setdefault(name, Interface(name, place))

    def interface(self, words: Words, place: Place) -> None:
        """Takes a statement of an interface, or of one of its units."""
        if len(words) < 2:
            return
        port, rest = self.named(words[0], place), words[1:]
        unit = match(rest, "unit *")
        if unit:
            one = self.named(f"{words[0]}.{unit[0]}", place)
            one.parent = words[0]
            self.unit(one, tuple(unit[1:]), place)
            return
        bundle = match(rest, "gigether-options|ether-options 802.3ad *")
        if bundle:
            members = self.named(bundle[1], place).members
            members += [words[0]] if words[0] not in members else []
        self.common(port, rest, place)

    def common(self, one: Interface, words: Words, place: Place) -> None:
        if words[:1] == ("description",):
            one.description = " ".join(words[1:])
        elif words == ("disable",):
            one.is_shut = True
        elif words[:1] == ("vlan-id",) and words[1:2] and words[1].isdigit():
            one.vlan = int(words[1])
        elif words[:2] == ("tunnel", "source") and len(words) > 2:
            one.tunnel_source = words[2]
        elif words[:2] == ("tunnel", "destination") and len(words) > 2:
            one.tunnel_destination = words[2]
        elif (found := match(words, "filter input|output *")) and len(found) > 1:
            self.tables.append(("any", found[1], place))
        elif FLOW_WORDS & set(words):
            self.log.unknown(place, " ".join(words))

    def unit(self, one: Interface, words: Words, place: Place) -> None:
        family = match(words, "family *")
        if not family:
            self.common(one, words, place)
            return
        name, rest = family[0], family[1:]
        if rest[:1] == ["address"] and len(rest) > 1 and name in FAMILIES:
            one.addresses += [rest[1]] if rest[1] not in one.addresses else []
            self.config.families.setdefault((one.name, name), place)
        elif rest[:1] == ["sampling"]:
            self.sampling(one.name, name, rest[1:], place)
        elif rest[:1] == ["filter"]:
            self.filter_use(one.name, name, rest[1:], place)
        elif FLOW_WORDS & set(rest):
            self.log.unknown(place, " ".join(rest))

    def sampling(self, unit: str, family: str, words: list[str], place: Place) -> None:
        for word in words or [""]:
            if word in ("input", "output"):
                self.add(Sampling(unit, family, word, place))
            else:
                self.log.unknown(place, f"sampling {word}".strip(), ["sampling input", "sampling output"])

    def add(self, one: Sampling) -> None:
        """Adds what samples at a unit, unless the same statement was there before."""
        key = (one.unit, one.family, one.direction, *one.filters)
        if key not in self.sampled:
            self.sampled.add(key)
            self.config.samplings.append(one)

    def filter_use(self, unit: str, family: str, words: list[str], place: Place) -> None:
        if not words:
            return
        direction = words[0].removesuffix("-list")
        if direction not in ("input", "output") or len(words) < 2:
            return
        names = [word for word in words[1:] if word not in ("precedence",
                                                            )] if words[0].endswith("-list") else words[1:2]
        if words[1:2] == ["filter-name"]:
            names = words[2:3]
        last = self.config.samplings[-1] if self.config.samplings else None
        is_same = last is not None and (last.unit, last.family, last.direction) == (unit, family, direction)
        if last and is_same and last.filters and words[0].endswith("-list"):
            last.filters += names
        else:
            self.add(Sampling(unit, family, direction, place, names))

    def services(self, words: Words, place: Place) -> None:
        if words[:1] != ("flow-monitoring",):
            if FLOW_WORDS & set(words):
                self.log.unknown(place, " ".join(words[:2]))
            return
        found = match(words, "flow-monitoring version-ipfix|version9 template *")
        if not found:
            self.log.unknown(place, " ".join(words[:3]), ["flow-monitoring version-ipfix template",
                                                          "flow-monitoring version9 template"])
            return
        version = 10 if found[0] == "version-ipfix" else 9
        one = self.config.templates.setdefault((version, found[1]), Template(found[1], place, version))
        self.template(one, found[2:], place)

    def template(self, one: Template, words: list[str], place: Place) -> None:
        word = words[0] if words else ""
        families = {"ipv4-template": "inet", "ipv6-template": "inet6", "mpls-template": "mpls",
                    "mpls-ipv4-template": "mpls",
                    "mpls-ipv6-template": "mpls", "vpls-template": "vpls", "bridge-template": "bridge",
                    "peer-as-billing-template": "as"}
        timeouts = {"flow-active-timeout": "activeTimeout", "flow-inactive-timeout": "idleTimeout"}
        if word in families:
            one.family = families[word]
        elif word in timeouts and len(words) == 2 and words[1].isdigit():
            one.timeouts[timeouts[word]] = int(words[1])
        elif word == "flow-key":
            self.log.note(place, f"{' '.join(words[1:])} is not an axis and is left out of the flow keys: records are "
                          f"finer, their sums the same")
        elif word and word not in ("template-refresh-rate", "option-refresh-rate", "observation-domain-id", "source-id",
                                   "template-id",
                                   "option-template-id", "tunnel-observation", "nexthop-learning",
                                   "data-record-fields"):
            self.log.unknown(place, word, [*families, *timeouts, "flow-key", "template-refresh-rate"])

    def forwarding(self, words: Words, place: Place) -> None:
        if words[:1] != ("sampling",):
            table = match(words, "family inet|inet6 filter input|output *")
            if table and len(table) > 2:
                self.tables.append((table[0], table[2], place))
            elif FLOW_WORDS & set(words):
                self.log.unknown(place, " ".join(words[:2]), ["sampling"])
            return
        found = match(words, "sampling instance *")
        name, rest = (found[0], found[1:]) if found else ("sampling", list(words[1:]))
        self.instance(self.config.instances.setdefault(name, Instance(name, place)), rest, place)

    def instance(self, one: Instance, words: list[str], place: Place) -> None:
        rate, family = match(words, "input rate *"), match(words, "family *")
        if rate and rate[0].isdigit():
            one.rate = (int(rate[0]), place)
        elif words[:1] == ["input"] and words[1:2] and words[1] in ("run-length", "max-packets-per-second",
                                                                    "maximum-packet-length"):
            one.limits += [place] if words[1] == "max-packets-per-second" else []
        elif words == ["disable"]:
            one.disabled[""] = place
        elif family and family[1:] == ["disable"]:
            one.disabled[family[0]] = place
        elif family and family[1:2] == ["output"]:
            self.output(one, family[0], family[2:], place)
        elif words:
            self.log.unknown(place, " ".join(words[:3]), ["input rate", "family inet output", "family inet6 output"])

    def output(self, one: Instance, family: str, words: list[str], place: Place) -> None:
        server = match(words, "flow-server *")
        jflow = match(words, "inline-jflow source-address *")
        known = ("flow-active-timeout", "flow-inactive-timeout", "aggregate-export-interval", "interface",
                 "extension-service")
        if server:
            servers = one.servers.setdefault(family, {})
            self.server(servers.setdefault(server[0], Server(server[0], place)), server[1:], place)
        elif jflow:
            one.sources[family] = jflow[0]
            one.inline.add(family)
        elif words[:1] == ["inline-jflow"] and words[1:2] in ([], ["flow-export-rate"]):
            one.inline.add(family)
        elif words[:1] == ["source-address"] and len(words) == 2:
            one.sources[family] = words[1]
        elif words and words[0] not in known:
            self.log.unknown(place, " ".join(words[:2]), ["flow-server", "inline-jflow source-address", *known],
                             (f"{one.name} {family}",))

    def server(self, one: Server, words: list[str], place: Place) -> None:
        template = match(words, "version-ipfix|version9 template *")
        if words[:1] == ["port"] and len(words) == 2 and words[1].isdigit() and 0 < int(words[1]) < 65536:
            one.port, one.place = int(words[1]), place
        elif template and len(template) == 2:
            one.version, one.template = 10 if template[0] == "version-ipfix" else 9, template[1]
        elif words[:1] == ["version"] and words[1:] in (["5"], ["8"], ["500"]):
            one.version = 5 if words[1] == "5" else 8
        elif words[:1] == ["source-address"] and len(words) == 2:
            one.source = words[1]
        elif words[:1] == ["routing-instance"] and len(words) == 2:
            one.routing_instance = words[1]
        elif words and words[0] not in ("autonomous-system-type", "dscp", "forwarding-class", "no-local-dump"):
            self.log.unknown(place, " ".join(words[:2]), ["port", "version-ipfix template", "version9 template",
                                                          "source-address"])

    def firewall(self, words: Words, place: Place) -> None:
        found = match(words, "family inet|inet6|any|mpls filter *") or (["inet", *words[1:]] if words[:1] == ("filter",)
                                                                        else None)
        if not found or len(found) < 2:
            if words[-2:] == ("then", "sample") or FLOW_WORDS & set(words):
                self.log.lost(place, "a filter of this family samples packets, and the document does not have it",
                              "sample in filters of family inet and inet6", Topic.FILTER)
            return
        key, rest = (found[0], found[1]), found[2:]
        terms = self.config.filters.setdefault(key, {})
        term = match(rest, "term *")
        if term:
            one = terms.setdefault(term[0], TermText(term[0], place))
            self.term(one, term[1:], key, place)
        elif rest[:1] not in ([], ["interface-specific"], ["physical-interface-filter"], ["interface-shared"],
                              ["enhanced-mode"]):
            self.config.filter_faults.setdefault(key, place)

    def term(self, one: TermText, words: list[str], key: tuple[str, str], place: Place) -> None:
        if words[:2] == ["then", "inline-monitoring-instance"]:
            self.log.lost(place, "packets are metered here by inline monitoring, and the document does not have it",
                          "meter by sampling", Topic.FILTER)
        if words[:1] == ["from"] and len(words) > 1:
            one.add(one.conditions, words[1:], place)
        elif words[:1] == ["then"] and len(words) > 1:
            one.add(one.actions, words[1:], place)
        elif words:
            self.config.filter_faults.setdefault(key, place)
