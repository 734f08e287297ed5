"""Nokia SR OS: cflowd, from the classic `admin display-config`, or from the paths or braces of MD-CLI."""
from __future__ import annotations

import re
from dataclasses import dataclass, field
from typing import Mapping, Sequence

from once_tools.boxes import TooManyBoxes
from once_tools.model import Cache, Destination, Device, Direction, Exporter, Interface, Place, Point, Selection, Topic, Unusable
from once_tools.readers import filters
from once_tools.readers.junos_terms import UnreadCondition
from once_tools.readers.log import Log, sampling
from once_tools.readers.paths_of_words import statements
from once_tools.readers.records import ADDRESSES, PORTS, destination_name, fields
from once_tools.readers.sros_filters import Filter, Filters, selections_of
from once_tools.readers.statements import match
from once_tools.readers.trees import Statement, Words, braced_lines, quoted_words
from once_tools.source import Source

KEYS = (*ADDRESSES, "protocolIdentifier", *PORTS, "ipClassOfService")
DIRECTIONS = {"ingress-only": Direction.INGRESS, "egress-only": Direction.EGRESS, "both": Direction.BOTH}
USUAL_RATE = 1000
HARMLESS = ("active-timeout", "inactive-timeout", "cache-size", "overflow", "template-retransmit", "export-mode",
            "use-vrtr-if-index", "description",
            "autonomous-system-type", "template-set", "exit", "enhanced-distribution")


USUAL_PROFILE = "1"
ROUTERS = ("Base", "management", "vpls-management")
# Settings whose line with `no` says what holds without it too.
USUALLY_OFF = (*HARMLESS, "analyze-gre-payload", "analyze-l2tp-traffic", "inband-collector-export-only",
               "outband-collector-export-only", "analyze-v4overv6-traffic")
BRACED = re.compile(r"(?m)^\s*(configure|cflowd|router \S+|service)\s*\{\s*$")


@dataclass
class Collector:
    address: str
    port: int
    place: Place
    version: int = 9
    has_version: bool = False
    is_on: bool | None = None
    aggregation: Place | None = None


@dataclass
class Use:
    """Sampling at an interface: which packets (`interface` for all, or `acl`), in which direction, at which rate."""

    interface: str
    place: Place
    values: dict[str, str] = field(default_factory=dict)

    @property
    def direction(self) -> str:
        return self.values.get("direction", "")

    @property
    def profile(self) -> str:
        return self.values.get("sample-profile", USUAL_PROFILE)


def classic(words: Words) -> list[str]:
    """Returns a statement of MD-CLI in the words of the classic one; a classic one is returned as it is."""
    found = [word for word in words if word not in ("configure", "/configure")]
    if "admin-state" in found[:-1]:
        at = found.index("admin-state")
        found[at:at + 2] = {"enable": ["no", "shutdown"], "disable": ["shutdown"]}.get(found[at + 1], found[at:at + 2])
    if found[:2] == ["cflowd", "collector"] and found[3:4] == ["port"] and len(found) > 4:
        address = f"[{found[2]}]" if ":" in found[2] else found[2]
        found[2:5] = [f"{address}:{found[4]}"]
    return found


def interface_at(words: list[str]) -> int:
    """Returns the index of the name of the interface that a statement of a router or service is about, 0 if there is none, as
    for the settings of a routing protocol at an interface."""
    if "interface" not in words[:-1] or words[0] not in ("router", "service"):
        return 0
    at = words.index("interface")
    between = words[3:at] if words[0] == "service" else words[2 if words[1] in ROUTERS else 1:at]
    while between[:1] in (["customer"], ["name"]) and len(between) > 1:
        between = between[2:]
    return at + 1 if all(word in ("create", "no") for word in between) else 0


class _Reading:
    """Reads one router."""

    def __init__(self, name: str, sources: list[Source]) -> None:
        self.log = Log(name)
        self.device = Device(name, "nokia-sros", [one.name for one in sources], findings=self.log.findings)
        self.collectors: dict[str, Collector] = {}
        self.rates: dict[str, tuple[int, Place]] = {}
        self.section: Place | None = None
        self.is_on: bool | None = None
        self.interfaces: dict[str, Interface] = {}
        self.owners: dict[str, tuple[str, ...]] = {}
        self.shut_owners: set[tuple[str, ...]] = set()
        self.open_owners: set[tuple[str, ...]] = set()
        self.uses: dict[str, Use] = {}
        self.filters = Filters()
        self.attached: dict[tuple[str, str, int], str] = {}
        self.marked: set[Place] = set()
        self.halves: dict[str, dict[str, str]] = {}
        found = [one for source in sources for one in (
            braced_lines(source) if BRACED.search(source.text) else statements(source, words_of=quoted_words))]
        if not any("cflowd" in one.words or one.words[0] in ("configure", "/configure") for one in found):
            raise Unusable(sources[0].place(0), "has no statement of SR OS",
                           "give the output of `admin display-config`, or of `admin show configuration` of MD-CLI")
        self.is_model_driven = any(BRACED.search(source.text) or "admin-state" in source.text for source in sources)
        for one in found:
            self.take(one)

    def take(self, one: Statement) -> None:
        words = classic(one.words)
        at = interface_at(words)
        if words[:1] == ["cflowd"]:
            self.section = self.section or one.place
            self.cflowd(words[1:], one.place)
        elif match(words, "system name *"):
            self.device.hostname = words[2]
        elif at and words[at - 2] == "no":
            self.log.unknown(one.place, " ".join(words[at - 2:at + 1]), ["interface"])
        elif at:
            owner = words[:3] if words[0] == "service" else [word for word in words[:2] if word not in ("interface", "Base")]
            name = words[at]
            self.check_owner(name, tuple(owner), one.place)
            self.interface(name, words[at + 1:], one.place)
            self.interfaces[name].vrf = " ".join(owner[1:]) if owner[1:2] == ["vprn"] else ""
        elif words[:1] == ["filter"]:
            self.filters.take(words, one.place)
        elif words[:1] == ["service"] and words[-1:] == ["shutdown"]:
            self.service(tuple(words[:3]), words[3:])
        elif "cflowd" in words or "cflowd-parameters" in words:
            self.log.unknown(one.place, " ".join(words[:3]), ["cflowd"])

    def service(self, owner: tuple[str, ...], words: list[str]) -> None:
        """Takes `shutdown` of a service; what is set where it is created may come before."""
        while len(words) > 2 and words[0] in ("customer", "name"):
            words = words[2:]
        words = [word for word in words if word != "create"]
        if words == ["shutdown"]:
            self.shut_owners.add(owner)
        elif words == ["no", "shutdown"]:
            self.shut_owners.discard(owner)
            self.open_owners.add(owner)

    def check_owner(self, name: str, owner: tuple[str, ...], place: Place) -> None:
        """Reports an interface whose name another service has too."""
        first = self.owners.setdefault(name, owner)
        if first != owner:
            self.log.lost(place, f"`{' '.join(first)}` also has an interface {name}, and the document has both as one",
                          "give the interfaces different names, or read the services apart")

    def cflowd(self, words: list[str], place: Place) -> None:
        collector, rate = match(words, "collector *"), match(words, "rate *")
        profile = match(words, "sample-profile *")
        if collector:
            self.collector(collector, place)
        elif rate and rate[0].isdigit() and int(rate[0]) > 0:
            self.rates[USUAL_PROFILE] = (int(rate[0]), place)
        elif profile and profile[1:] in ([], ["create"]):
            pass
        elif profile and "sample-rate" in profile and profile[-1].isdigit() and int(profile[-1]) > 0:
            self.rates[profile[0]] = (int(profile[-1]), place)
        elif words in (["no", "shutdown"], ["shutdown"]):
            self.is_on = words[0] == "no"
        elif words in (["analyze-gre-payload"], ["analyze-gre-payload", "true"]):
            self.log.lost(place, "packets of GRE are metered by the headers of the packets inside, but the document has "
                          "the outer ones", "remove it, or accept this", Topic.OTHER)
        elif words == ["export-mode", "manual"]:
            self.log.premise(place, "records are exported when an operator has them exported: the audit speaks of totals "
                             "after that", "set export-mode automatic")
        elif words and words[0] not in HARMLESS and (words[0] != "no" or words[1:2] and words[1] not in USUALLY_OFF):
            self.log.unknown(place, " ".join(words), ["collector", "rate", "no shutdown", *HARMLESS])

    def collector(self, words: list[str], place: Place) -> None:
        found = re.fullmatch(r"\[?([0-9A-Fa-f.:]+?)\]?(?::([0-9]{1,5}))?", words[0])
        if not found or not 0 < int(found[2] or 2055) < 65536:
            raise Unusable(place, f"{words[0]} is not a collector", "write ADDRESS:PORT")
        one = self.collectors.setdefault(words[0], Collector(found[1], int(found[2] or 2055), place))
        rest = [word for word in words[1:] if word != "create"]
        if rest[:1] == ["version"] and len(rest) > 1 and rest[1] in ("5", "8", "9", "10"):
            one.version, one.has_version, rest = int(rest[1]), True, rest[2:]
        if rest in (["no", "shutdown"], ["shutdown"]):
            one.is_on = rest[0] == "no"
        elif rest[:1] == ["aggregation"]:
            one.aggregation = one.aggregation or place
        elif rest and rest[0] not in HARMLESS:
            self.log.unknown(place, " ".join(rest), ["version", "no shutdown", *HARMLESS], (words[0],))

    def interface(self, name: str, words: list[str], place: Place) -> None:
        one = self.interfaces.setdefault(name, Interface(name, place))
        words = words[1:] if words[:1] == ["create"] else words
        if words[:1] in (["port"], ["sap"]) and len(words) > 1:
            one.aliases += [words[1]] if words[1] not in one.aliases else []
            words = [word for word in words[2:] if word != "create"] if words[0] == "sap" else []
        if words[:1] in (["address"], ["secondary"], ["ipv4"], ["ipv6"]):
            self.address(one, words)
        elif attached := match(words, "ingress|egress filter ip|ipv6 *"):
            self.attached[(name, attached[0], 4 if attached[1] == "ip" else 6)] = attached[2]
        elif words in (["shutdown"], ["no", "shutdown"]):
            one.is_shut = words[0] != "no"
        elif words[:1] == ["description"]:
            one.description = " ".join(words[1:])
        elif words[:1] in (["cflowd"], ["cflowd-parameters"]):
            self.use(name, words, place)

    def address(self, one: Interface, words: list[str]) -> None:
        """Takes an address with its length in one word, or in two values of MD-CLI."""
        text = next((word for word in words[1:] if "/" in word), "")
        half = match(words, "ipv4 primary address|prefix-length *")
        pair = match(words, "ipv4 secondary * prefix-length *") or match(words, "ipv6 address * prefix-length *") \
            or match(words, "ipv4 primary address * prefix-length *")
        if pair:
            text = "/".join(pair[-2:])
        elif half:
            known = self.halves.setdefault(one.name, {})
            known[half[0]] = half[1]
            text = f"{known['address']}/{known['prefix-length']}" if len(known) == 2 else ""
        one.addresses += [text] if text and text not in one.addresses else []

    def use(self, name: str, words: list[str], place: Place) -> None:
        rest = words[3:]
        if words[:3] == ["cflowd-parameters", "sampling", "multicast"]:
            self.log.note(place, "multicast is not declared as traffic")
        elif words[:3] == ["cflowd-parameters", "sampling", "unicast"]:
            one = self.uses.setdefault(name, Use(name, place))
            for key, value in zip(rest[::2], rest[1::2]):
                self.sample(one, key, value, place)
            if len(rest) % 2 and rest[-1] != "exit":
                self.log.unknown(place, rest[-1], ["type", "direction", "sample-profile"])
        elif words[-1] not in ("cflowd-parameters", "exit", "shutdown"):
            self.log.unknown(place, " ".join(words), ["cflowd-parameters sampling unicast type interface direction "
                                                      "ingress-only"])

    def sample(self, one: Use, key: str, value: str, place: Place) -> None:
        """Takes a value of the sampling at an interface."""
        values = {"type": ("interface", "acl"), "direction": tuple(DIRECTIONS), "sample-profile": ()}.get(key)
        if values is None or values and value not in values:
            self.log.unknown(place, f"{key} {value}", [f"{key} {word}" for word in values or ()] or ["direction"])
        elif one.values.get(key, value) != value:
            self.log.lost(place, f"line {one.place.line} has {key} {one.values[key]} for this interface, and which of them "
                          "holds is not known here: the document has the first", "give the configuration that runs")
        else:
            one.values[key] = value

    def read(self) -> Device:
        self.device.interfaces = list(self.interfaces.values())
        if not self.section:
            return self.device
        if self.is_on is None and self.is_model_driven:
            self.is_on = True
            self.log.premise(self.section, "cflowd has no admin-state: it is taken to be enabled", "add `admin-state enable`")
        if not self.is_on:
            self.log.note(self.section, "cflowd has no `no shutdown`: nothing is metered")
            return self.device
        for name, one in self.collectors.items():
            self.exporter(name, one)
        exporters = [one.name for one in self.device.exporters]
        for version in (4, 6):
            able = [one.name for one in self.device.exporters if version == 4 or one.destinations[0].version >= 9]
            cache = f"cflowd IPv{version}"
            self.device.caches.append(Cache(cache, "timeout", fields(KEYS, version, self.section), able, self.section))
        self.points(exporters)
        self.report_rates(exporters)
        self.report_filters(exporters)
        self.log.premise(self.section, "the flow keys are addresses, ports, protocol and class of service, and "
                         "counters have 8 octets",
                         "look at its templates with `once-import template`", Topic.COUNTERS, 618, exporters)
        return self.device

    def exporter(self, name: str, one: Collector) -> None:
        if one.is_on is None and self.is_model_driven:
            one.is_on = True
            self.log.premise(one.place, "the collector has no admin-state: it is taken to be enabled",
                             "add `admin-state enable`", Topic.OTHER, None, (name,))
        if not one.is_on:
            self.log.note(one.place, "the collector has no `no shutdown`, and is left out")
            return
        where = Destination(destination_name(one.address, one.port), one.address, one.port, one.place, "udp", "",
                            one.version)
        self.device.exporters.append(Exporter(name, [where], one.place))
        if one.aggregation and one.version != 8:
            self.log.premise(one.aggregation, "aggregation is taken to bear on collectors of version 8 alone", "remove it",
                             Topic.MASK, None, (name,))
        if not one.has_version:
            self.log.premise(one.place, "no version is given: NetFlow 9 is taken to be sent", "set version 10", Topic.OTHER, None,
                             (name,))
        if one.version == 8:
            self.log.lost(one.place, "version 8 sends aggregated records, but the document has whole ones",
                          "use version 10", Topic.MASK, None, (name,))
        elif one.version != 10:
            self.log.note(one.place, f"NetFlow {one.version} is not IPFIX: the audit is the same, but `once collect` "
                          f"refuses its messages",
                          "use version 10", 611, (name,))

    def points(self, exporters: list[str]) -> None:
        groups: dict[tuple[str, str, bool, str, str], list[Use]] = {}
        for one in self.uses.values():
            if self.is_left_out(one):
                continue
            by_filter = one.values.get("type") == "acl"
            if "type" not in one.values:
                self.log.lost(one.place, "no type is given, so which packets are sampled is not known; the document meters all "
                              "packets here", "sample with type interface", Topic.FILTER, None, exporters)
            if not one.direction:
                self.log.premise(one.place, "no direction is given: packets are taken to be metered where they come in",
                                 "", Topic.OTHER, None, exporters)
            if one.direction == "both":
                self.log.warning(one.place, "packets are metered where they come in and where they leave, so each "
                                 "that crosses two of the interfaces "
                                 "counts twice", "write direction ingress-only", exporters)
            for direction in self.directions(one):
                ipv4, ipv6 = (self.bearing(one, direction, version, by_filter) for version in (4, 6))
                groups.setdefault((direction, one.profile, by_filter, ipv4, ipv6), []).append(one)
        for (direction, profile, by_filter, *names), found in groups.items():
            self.point(direction, profile, found, self.selections(found, by_filter, names, exporters))

    def directions(self, one: Use) -> list[str]:
        """Returns the direction of a use; where filters bear on it, each direction has a point of its own."""
        direction = one.direction or "ingress-only"
        sides = [side for side in ("ingress", "egress") for version in (4, 6) if (one.interface, side, version) in self.attached]
        return ["ingress-only", "egress-only"] if direction == "both" and (sides or one.values.get("type") == "acl") \
            else [direction]

    def bearing(self, use: Use, direction: str, version: int, by_filter: bool) -> str:
        """Returns the filter that bears on what is sampled at an interface, "" if there is none."""
        side = direction.removesuffix("-only")
        name = self.attached.get((use.interface, side, version), "")
        if name and (version, name) not in self.filters.found:
            why = f"filter {name}, which is at {use.interface}, is not in this configuration"
            if not by_filter:
                self.log.premise(use.place, f"{why}: it is taken to have no entry with interface-disable-sample",
                                 "give the whole configuration")
                return ""
            self.filters.found[(version, name)] = Filter(version, name, unread=(use.place, why))
        return name if name and (by_filter or self.filters.found[(version, name)].marked(False)) else ""

    def selections(self, found: list[Use], by_filter: bool, names: Sequence[str], exporters: list[str]) -> list[Selection]:
        """Returns the selection processes of both versions of IP at interfaces with the same filters."""
        selections = []
        for version, name in zip((4, 6), names):
            cache = f"cflowd IPv{version}"
            if name:
                selections += self.filtered(self.filters.found[(version, name)], by_filter, cache, found[0], exporters)
            elif not by_filter:
                selections.append(filters.whole_family(cache, version, cache, found[0].place))
            else:
                self.log.note(found[0].place, f"no filter of IPv{version} is at {found[0].interface} in this direction, so no "
                              f"packet of IPv{version} is sampled there", exporters=exporters)
        return selections

    def filtered(self, one: Filter, by_filter: bool, cache: str, use: Use, exporters: list[str]) -> list[Selection]:
        """Returns the selection processes of the packets of a filter that are sampled."""
        self.marked |= set(one.marked(by_filter))
        for entry in one.entries.values():
            if not entry.action:
                self.log.note(entry.place, "the entry has no action: it is not active, and left out", exporters=exporters)
        try:
            found = selections_of(one, self.filters.lists, by_filter, cache, use.place)
            self.log.note(use.place, f"filter {one.name} chooses the packets of IPv{one.version} that are sampled: "
                          f"{len(found)} selection processes", exporters=exporters)
            return found
        except UnreadCondition as error:
            self.log.lost(error.place, f"{error.why}; the document meters all packets of IPv{one.version} at the interfaces with "
                          f"filter {one.name}", "sample by addresses, protocols and ports", Topic.FILTER, None, exporters)
        except TooManyBoxes as error:
            says, todo = filters.too_many(error)
            self.log.lost(use.place, says, todo, Topic.FILTER, None, exporters)
        return [filters.whole_family(cache, one.version, cache, use.place)]

    def is_left_out(self, one: Use) -> bool:
        """Returns whether the interface or its service is shut, after a note."""
        owner = self.owners.get(one.interface, ())
        if self.interfaces[one.interface].is_shut:
            self.log.note(one.place, f"{one.interface} is shut, and left out")
        elif owner in self.shut_owners:
            self.log.note(one.place, f"`{' '.join(owner)}` is shut, and {one.interface} is left out")
        else:
            if self.is_model_driven and owner[:1] == ("service",) and owner not in self.open_owners:
                self.log.premise(one.place, f"`{' '.join(owner)}` has no admin-state: it is taken to be enabled", "add `admin-state "
                                 "enable`, if it is")
            return False
        return True

    def point(self, direction: str, profile: str, found: list[Use], selections: list[Selection]) -> None:
        """Adds the point of interfaces with one direction, one rate and the same filters."""
        if not selections:
            return
        rate = self.rates[profile][0] if profile in self.rates else USUAL_RATE
        name = f"cflowd {direction}" + (f" profile {profile}" if profile != USUAL_PROFILE else "")
        taken = [one.name for one in self.device.points]
        name = next(text for text in (name, *(f"{name} {number}" for number in range(2, len(taken) + 3))) if text not in taken)
        self.device.points.append(Point(name, [one.interface for one in found], DIRECTIONS[direction], selections,
                                        found[0].place, [one.place for one in found], sampling(rate) if rate > 1 else None))

    def report_rates(self, exporters: list[str]) -> None:
        """Reports the rates that interfaces use."""
        used = {one.profile: one.place for one in self.uses.values()}
        for profile, place in used.items() if used else [(USUAL_PROFILE, self.section or Place(""))]:
            rate = self.rates.get(profile)
            if rate is None:
                which, where = ("", self.section or place) if profile == USUAL_PROFILE else (f" for profile {profile}", place)
                self.log.lost(where, f"no rate is set{which}, so one packet out of {USUAL_RATE} is sampled, and a total "
                              f"over a sample is not exact; the "
                              "document meters all packets", "set rate 1", Topic.SAMPLER, 108, exporters)
            elif rate[0] > 1:
                self.log.sampler(rate[1], str(rate[0]), exporters)
            else:
                self.log.note(rate[1], "rate 1: all packets", exporters=exporters)

    def report_filters(self, exporters: list[str]) -> None:
        """Notes the entries of filters that say what is sampled, and are at no interface where that bears on it."""
        for one in self.filters.found.values():
            for place in [*one.marked(True), *one.marked(False)]:
                if place not in self.marked:
                    self.log.note(place, f"filter {one.name} is at no interface at which this bears on what is sampled",
                                  exporters=exporters)


class NokiaSros:
    kind = "nokia-sros"
    title = "Nokia SR OS (classic configuration, or MD-CLI)"
    how_to_get = "admin display-config, or in MD-CLI: admin show configuration"
    certainty = "unsure"

    def detect(self, text: str) -> int:
        if re.search(r"(?m)^\s+cflowd\s*$", text) and re.search(r"(?m)^(configure\s*$|# TiMOS|echo \")", text):
            return 97
        if re.search(r"(?m)^\s*cflowd \{|^/configure cflowd ", text):
            return 97
        return 75 if re.search(r"(?m)^# TiMOS|^/configure |^configure \{", text) else 0

    def read(self, name: str, sources: list[Source], options: Mapping[str, str]) -> Device:
        return _Reading(name, sources).read()


READER = NokiaSros()
