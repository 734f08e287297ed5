"""The project file: a TOML text that names the devices, the collectors, the report and the traffic."""
from __future__ import annotations

import os
import tomllib
from dataclasses import dataclass, field
from pathlib import Path
from typing import Mapping

from once_tools.elements import form_of, is_range
from once_tools.model import Direction, Failed, Finding, Grade, Place, Topic, Unusable
from once_tools.source import Source, check_encoding, read_source
from once_tools.toml_places import TomlPlaces
from once_tools.toml_table import Table, nearest


@dataclass(frozen=True)
class Report:
    """Whose totals are asked for, and by what. `key` has elements, prefixes as `sourceIPv4Prefix/24`, or `source` and
    `destination`, which stand for both versions of IP."""

    collector: str
    key: tuple[str, ...]
    place: Place
    process: str = ""
    plugin: str = ""
    collector_place: Place = Place("")  # the line of `collector`


@dataclass(frozen=True)
class DeviceEntry:
    """A device with its files, as the project names them. `options` go to the reader; `kind_place` is the line of `kind`."""

    name: str
    place: Place
    kind: str = ""
    config: tuple[str, ...] = ()
    addresses: tuple[str, ...] = ()
    routes: tuple[str, ...] = ()
    lldp: tuple[str, ...] = ()
    aliases: tuple[str, ...] = ()
    meter: str = ""
    options: Mapping[str, str] = field(default_factory=dict)
    kind_place: Place = Place("")


@dataclass(frozen=True)
class CollectorEntry:
    """A collector: where it listens, or a kind with configuration files that say so. `accept_from` of None is any."""

    name: str
    place: Place
    listen: tuple[str, ...] = ()
    kind: str = ""
    config: tuple[str, ...] = ()
    addresses: tuple[str, ...] = ()
    accept_from: tuple[str, ...] | None = None
    directions: tuple[Direction, ...] = ()
    interfaces: tuple[str, ...] = ()
    forwards: tuple[str, ...] = ()
    aggregates: tuple[str, ...] = ()
    options: Mapping[str, str] = field(default_factory=dict)


@dataclass(frozen=True)
class AddressEntry:
    """An address that exporters send to, with the addresses that it stands for."""

    given: str
    real: tuple[str, ...]
    place: Place


@dataclass(frozen=True)
class LinksEntry:
    """Where links between devices are read from: CSV tables, pairs of `DEVICE:INTERFACE`, LLDP and CDP outputs, shared small
    subnets."""

    table: tuple[str, ...] = ()
    lldp: tuple[str, ...] = ()
    subnets: bool = True
    place: Place = Place("")
    pairs: tuple[tuple[str, ...], ...] = ()


@dataclass(frozen=True)
class Role:
    """A name for interfaces: `DEVICE:INTERFACE`, either with patterns as `*`."""

    name: str
    interfaces: tuple[str, ...]
    place: Place


@dataclass(frozen=True)
class Traffic:
    """Traffic of one name. `sources` and `destinations` are addresses or prefixes of either version; `axes` are the other
    elements with values as a region spells them; `paths` are lists of crossings `DEVICE:INTERFACE:ingress`. `others`
    stands for what no traffic above holds."""

    name: str
    place: Place
    sources: tuple[str, ...] = ()
    destinations: tuple[str, ...] = ()
    axes: Mapping[str, str] = field(default_factory=dict)
    start: tuple[str, ...] = ()  # member `from`: roles or interfaces
    end: tuple[str, ...] = ()  # member `to`
    ingress: tuple[str, ...] = ()
    paths: tuple[tuple[str, ...], ...] = ()
    batfish: tuple[str, ...] = ()
    both_ways: bool = False
    exempt: bool = False
    billed: bool = False
    hairpin: bool = False
    others: bool = False
    hops: int = 8
    loops: str = ""  # "drop": packets in a loop are dropped
    merge: str = ""  # "paths": one class with the union of all paths


@dataclass(frozen=True)
class PathOptions:
    """Table `[paths]`: options of all traffic."""

    control: bool = False  # declare packets of and to the routers themselves
    may_drop: bool = False  # declare each path's beginnings too
    full: bool = False  # keep crossings that no observation point sees


@dataclass(frozen=True)
class Accept:
    """A topic whose findings are accepted at a device, or at all with `*`."""

    topic: Topic
    device: str
    place: Place


@dataclass
class Project:
    """A project; findings of grade WRONG say that it cannot be used."""

    folder: Path
    file: str
    report: Report
    devices: list[DeviceEntry] = field(default_factory=list)
    collectors: list[CollectorEntry] = field(default_factory=list)
    addresses: list[AddressEntry] = field(default_factory=list)
    links: LinksEntry = LinksEntry()
    roles: list[Role] = field(default_factory=list)
    traffic: list[Traffic] = field(default_factory=list)
    paths: PathOptions = PathOptions()
    accept: list[Accept] = field(default_factory=list)
    findings: list[Finding] = field(default_factory=list)

    def files(self, patterns: tuple[str, ...], place: Place) -> list[Path]:
        """Returns the files that names and patterns stand for, relative to the project; raises `Unusable` for none."""
        found: list[Path] = []
        for pattern in patterns:
            if any(mark in pattern for mark in "*?["):
                matches = sorted(self.folder.glob(pattern)) if not Path(pattern).is_absolute() else []
                if not matches:
                    raise Failed(place, f"no file matches '{pattern}'", "name a file of the project's folder")
                found += matches
            else:
                found.append(self.folder / pattern)
        return found

    def sources(self, patterns: tuple[str, ...], place: Place) -> list[Source]:
        """Returns the texts of files; they are cited by their paths from the project's folder."""
        found = []
        for path in self.files(patterns, place):
            name = os.path.relpath(path, self.folder)
            try:
                found.append(read_source(path, name))
            except Unusable as why:
                finding = why.finding
                raise type(why)(place, f"file {name} {finding.says}", finding.todo) from why
        return found


AXES = {
    "protocol": "protocolIdentifier",
    "source_port": "sourceTransportPort",
    "destination_port": "destinationTransportPort",
    "class_of_service": "ipClassOfService",
    "version": "ipVersion",
}


def _axes(table: Table) -> dict[str, str]:
    """Returns the members of traffic that are axes, by the names of elements."""
    found = {}
    for name, element in AXES.items():
        for key in (name, element):
            value = table.value(key)
            if isinstance(value, (str, int)) and not isinstance(value, bool) and is_range(element, str(value)):
                found[element] = str(value)
            elif value is not None:
                table.wrong(key, f"'{key}' must be {form_of(element)}, or a range", f'write {key} = 6 or {key} = "4-6"')
    if found.get("ipVersion", "4") not in ("4", "6"):
        table.wrong("version", "'version' must be 4 or 6", "leave it out for both")
        del found["ipVersion"]
    return found


def _lists(table: Table, key: str, example: str) -> tuple[tuple[str, ...], ...]:
    value = table.value(key)
    if value is None:
        return ()
    if isinstance(value, list) and all(isinstance(each, list) for each in value):
        return tuple(tuple(str(one) for one in each) for each in value)
    table.wrong(key, f"'{key}' must be a list of lists", f"write {key} = {example}")
    return ()


def _paths(table: Table) -> tuple[tuple[str, ...], ...]:
    return _lists(table, "paths", '[["edge-1:eth0:ingress"]]')


def _pairs(table: Table) -> tuple[tuple[str, ...], ...]:
    found = _lists(table, "pairs", '[["edge-1:eth1", "core-1:eth0"]]')
    for one in found:
        if len(one) != 2 or not all(":" in each for each in one):
            table.wrong("pairs", f"'{', '.join(one)}' is no pair of interfaces", 'write ["edge-1:eth1", "core-1:eth0"]')
    return tuple(one for one in found if len(one) == 2 and all(":" in each for each in one))


def _traffic(table: Table) -> Traffic:
    found = Traffic(
        table.text("name", True), table.place(), table.texts("source"), table.texts("destination"), _axes(table),
        table.texts("from"), table.texts("to"), table.texts("ingress"), _paths(table), table.texts("batfish"),
        table.flag("both_ways"), table.flag("exempt"), table.flag("billed"), table.flag("hairpin"), table.flag("others"),
        table.number_of("hops", 8, 1, 32), table.text("loops"), table.text("merge"))
    if not (found.start or found.end or found.ingress or found.paths or found.batfish or found.destinations):
        table.wrong("", f"traffic '{found.name}' has no way to find its paths",
                    "add 'from' and 'to' (roles or interfaces), or 'destination' (routing tables), or 'paths'")
    if found.start and found.ingress:
        table.wrong("ingress", f"traffic '{found.name}' has both 'from' and 'ingress'", "write 'from' and 'to' for paths between "
                    "interfaces, or 'ingress' and 'destination' for those of routing tables")
    if bool(found.start) != bool(found.end):
        table.wrong("", f"traffic '{found.name}' has only one of 'from' and 'to'", "add the other one")
    return found


def _device(table: Table) -> DeviceEntry:
    options = table.options("options")
    for key in ("counts", "meter"):
        if table.text(key):
            options[key] = table.text(key)
    return DeviceEntry(
        table.text("name", True), table.place(), table.text("kind"), table.texts("config"), table.texts("addresses"),
        table.texts("routes"), table.texts("lldp"), table.texts("aliases"), options.get("meter", ""), options,
        table.place("kind") if "kind" in table.raw else table.place())


def _directions(table: Table) -> tuple[Direction, ...]:
    found = []
    for text in table.texts("directions"):
        if text in ("ingress", "egress"):
            found.append(Direction(text))
        else:
            table.wrong("directions", f"no direction '{text}'", 'write "ingress" or "egress"')
    return tuple(found)


def _collector(table: Table) -> CollectorEntry:
    accept = table.texts("accept_from") if "accept_from" in table.raw else None
    found = CollectorEntry(
        table.text("name", True), table.place(), table.texts("listen"), table.text("kind"), table.texts("config"),
        table.texts("addresses"), accept, _directions(table), table.texts("interfaces"), table.texts("forwards"),
        table.texts("aggregates"), table.options("options"))
    table.asked.append("accept_from")
    if not found.listen and not found.config:
        table.wrong("", f"collector '{found.name}' listens nowhere", 'add listen = ["ADDRESS:PORT"], or kind and config')
    return found


def _accepts(table: Table) -> list[Accept]:
    found = []
    topics = {topic.value: topic for topic in Topic}
    for key in table.raw:
        devices = table.texts(key)
        if key in topics:
            found += [Accept(topics[key], device, table.place(key)) for device in devices]
        else:
            table.wrong(key, f"[accept] has no topic '{key}'", nearest(key, topics))
    return found


def _report(table: Table) -> Report:
    return Report(table.text("collector", True), table.texts("key"), table.place(), table.text("process"),
                  table.text("plugin"), table.place("collector") if "collector" in table.raw else table.place())


def _addresses(table: Table) -> list[AddressEntry]:
    return [AddressEntry(key, table.texts(key), table.place(key)) for key in table.raw]


def _roles(table: Table) -> list[Role]:
    return [Role(key, table.texts(key), table.place(key)) for key in table.raw]


def _links(table: Table) -> LinksEntry:
    return LinksEntry(table.texts("table"), table.texts("lldp"), table.flag("subnets", True), table.place(), _pairs(table))


def _path_options(table: Table) -> PathOptions:
    return PathOptions(table.flag("control"), table.flag("may_drop"), table.flag("full"))


class _Parser:
    """Reads the tables of a project's text."""

    MEMBERS = ["report", "devices", "collectors", "addresses", "links", "roles", "traffic", "paths", "accept"]

    def __init__(self, source: Source, raw: Mapping[str, object]) -> None:
        self.raw, self.places = raw, TomlPlaces(source)
        self.findings: list[Finding] = []

    def wrong(self, place: Place, says: str, todo: str) -> None:
        self.findings.append(Finding(Grade.WRONG, place, says, todo))

    def table(self, name: str) -> Table:
        return Table(self.raw.get(name, {}), self.places, name, 0, self.findings)

    def tables(self, name: str) -> list[Table]:
        entries = self.raw.get(name, [])
        if not isinstance(entries, list):
            self.wrong(self.places.place(name), f"'{name}' must be a list of tables", f"write [[{name}]]")
            return []
        return [Table(entry, self.places, name, number, self.findings) for number, entry in enumerate(entries)]

    def unknown(self) -> None:
        for name in self.raw:
            if name not in self.MEMBERS:
                place = self.places.place(name)
                place = place if place.line else self.places.place("", 0, name)
                self.wrong(place, f"no table '{name}'", nearest(name, self.MEMBERS))

    def names(self, kind: str, entries: list[tuple[str, Place]]) -> None:
        """Reports names that a document may not have."""
        for name, place in entries:
            if name and (name != name.strip() or len(name.encode("utf-8", "replace")) > 255):
                self.wrong(place, f"'{name}' is no name of a {kind}", "write 1 to 255 octets without white space at either end")

    def twice(self, kind: str, entries: list[tuple[str, Place]]) -> None:
        seen: dict[str, Place] = {}
        for name, place in entries:
            if name in seen:
                self.wrong(place, f"{kind} '{name}' is in line {seen[name].line} too", "give one of them another name")
            seen.setdefault(name, place)


def _ended(tables: list[Table]) -> None:
    for table in tables:
        table.end()


def parse_project(source: Source, folder: Path) -> Project:
    """Returns the project that a text describes, with what is wrong in it as findings."""
    try:
        raw = tomllib.loads(source.text)
    except tomllib.TOMLDecodeError as error:
        raise Unusable(_place_of(source, str(error)), f"is not TOML: {error}", "correct the line") from None
    parser = _Parser(source, raw)
    single = {name: parser.table(name) for name in ("report", "addresses", "links", "roles", "paths", "accept")}
    lists = {name: parser.tables(name) for name in ("devices", "collectors", "traffic")}
    project = Project(
        folder, source.name, _report(single["report"]), [_device(one) for one in lists["devices"]],
        [_collector(one) for one in lists["collectors"]], _addresses(single["addresses"]), _links(single["links"]),
        _roles(single["roles"]), [_traffic(one) for one in lists["traffic"]], _path_options(single["paths"]),
        _accepts(single["accept"]), parser.findings)
    _ended([*single.values(), *lists["devices"], *lists["collectors"], *lists["traffic"]])
    parser.unknown()
    devices = [(one.name, one.place) for one in project.devices] + [(one.name, one.place) for one in project.collectors]
    traffic = [(one.name, one.place) for one in project.traffic]
    for kind, entries in (("device", devices), ("traffic", traffic)):
        parser.names(kind, entries)
        parser.twice(kind, entries)
    return project


def _place_of(source: Source, message: str) -> Place:
    _, _, text = message.partition("at line ")
    digits = text.split(",")[0].split(" ")[0].rstrip(")")
    return source.place(int(digits)) if digits.isdigit() else Place(source.name)


def read_project(path: Path) -> Project:
    """Reads a project file; raises `Failed` if the file cannot be read, and `Unusable` if it is not TOML."""
    source = read_source(path)
    check_encoding(path, source)
    return parse_project(source, path.resolve().parent)
