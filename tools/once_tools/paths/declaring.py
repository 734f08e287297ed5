"""Declares the traffic of a project: classes with regions, and the paths that their packets may take."""
from __future__ import annotations

from dataclasses import dataclass, field, replace

from once_tools.model import Crossing, Device, Direction, Finding, Grade, Place, Topic, Unusable
from once_tools.paths.batfish import batfish_paths
from once_tools.paths.control import control_pieces
from once_tools.paths.links import report_subnets
from once_tools.paths.layers import layered, metered_by
from once_tools.paths.nat import report_translation, translation_of
from once_tools.paths.pieces import Declaration, Piece, beginnings
from once_tools.paths.premises import meaning, premises
from once_tools.paths.regions import Span, cut, span_of, whole
from once_tools.paths.setup import tables_of, topology_of
from once_tools.paths.routes import Tables
from once_tools.paths.topology import Node, Topology
from once_tools.paths.tunnels import outer_pieces
from once_tools.paths.ways import Path, Search, Target, Walker, crossing, simple_paths
from once_tools.project import Project, Traffic
from once_tools.toml_table import nearest

MOST_PIECES = 10_000
BACK = {"sourceTransportPort": "destinationTransportPort", "destinationTransportPort": "sourceTransportPort"}


def listed(nodes: list[Node]) -> str:
    """Returns the first of some interfaces in words."""
    return ", ".join(f"{device} {name}" for device, name in nodes[:8]) + (", .." if len(nodes) > 8 else "")


@dataclass
class _Declaring:
    """A declaration in the making."""

    project: Project
    topology: Topology
    tables: dict[str, list[Tables]]
    findings: list[Finding] = field(default_factory=list)
    pieces: list[Piece] = field(default_factory=list)
    named: dict[Node, Traffic] = field(default_factory=dict)
    uses_tables: bool = False
    uses_roles: bool = False

    def wrong(self, place: Place, says: str, todo: str = "") -> None:
        """Adds a finding for which no document can be written."""
        self.findings.append(Finding(Grade.WRONG, place, says, todo))

    def traffic(self, one: Traffic) -> None:
        """Adds the pieces of a traffic, with the way back if it is asked for."""
        for way in [one, backwards(one)] if one.both_ways else [one]:
            try:
                before = len(self.pieces)
                self._way(way)
                told = [*self.topology.findings, *self.findings]
                if len(self.pieces) == before and not any(each.grade is Grade.WRONG for each in told):
                    self.wrong(one.place, f"traffic '{way.name}' has no path", "correct 'from' and 'to', or give links")
            except Unusable as error:
                self.findings.append(error.finding)

    def _way(self, one: Traffic) -> None:
        if one.paths or one.batfish or one.start:
            whole_paths = self._whole_paths(one)
            for version, source, destination in self._regions(one):
                paths = self._of_version(one, version, whole_paths) if one.start else whole_paths
                self._add(one, version, source, destination, paths)
        else:
            self.uses_tables = True
            walker = Walker(self.topology, self.tables, one.loops == "drop")
            for version, source, destination in self._regions(one):
                if destination is None:
                    raise Unusable(one.place, f"traffic '{one.name}' has no destination", "add one, or 'from' and 'to'")
                self._by_tables(one, walker, source or whole(version), destination)
            self.findings += walker.findings

    def _add(self, one: Traffic, version: int, source: Span | None, destination: Span | None, paths: list[Path]) -> None:
        if paths:
            axes = tuple((element, value) for element, value in one.axes.items() if element != "ipVersion")
            self.pieces.append(Piece(one.name, version, source, destination, tuple(paths), one.place, axes, one.exempt))

    def _whole_paths(self, one: Traffic) -> list[Path]:
        """Returns paths that do not depend on addresses."""
        found = dict.fromkeys(_written(path, self.topology, one.place) for path in one.paths)
        for source in self.project.sources(one.batfish, one.place):
            found |= dict.fromkeys(batfish_paths(source, self.topology))
        if one.start:
            self.uses_roles = True
            found |= dict.fromkeys(self._between(one))
        return list(found)

    def _between(self, one: Traffic) -> list[Path]:
        starts, ends = self.nodes(one.start, one.place), self.nodes(one.end, one.place)
        search = Search(starts, ends, one.hops, one.hairpin, one.place)
        cut: set[Node] = set()
        found = simple_paths(self.topology, search, cut)
        if starts and ends:
            found = list(dict.fromkeys([*found, *self._between_vrfs(one, search, found, cut)]))
        if cut:
            self.findings.append(Finding(Grade.PREMISE, one.place, f"paths of '{one.name}' over more than {one.hops} devices, as "
                                         f"over {listed(sorted(cut)[:1])}, are not declared", "write hops = N for more"))
        for end in ends:
            for peer in self.topology.peers.get(end, []):
                self.findings.append(Finding(Grade.PREMISE, one.place, f"'{one.name}' ends at {end[0]} {end[1]}, which leads to "
                                             f"{peer[0]} {peer[1]}: what meters see from there on is not declared",
                                             "name the interfaces by which it leaves the network"))
        return found

    def _of_version(self, one: Traffic, version: int, paths: list[Path]) -> list[Path]:
        """Returns the paths that packets of a version can begin. Where the traffic names its packets, they can begin all."""
        if one.sources or one.destinations or "ipVersion" in one.axes:
            return paths
        lacking = list(dict.fromkeys((path[0].device, path[0].interface) for path in paths if version in
                                     self.topology.interfaces[path[0].device][path[0].interface].lacks))
        if lacking:
            self.findings.append(Finding(Grade.PREMISE, one.place, f"IPv{version} is not configured at {listed(lacking)}: "
                                         f"no packet of '{one.name}' over IPv{version} comes in there"))
        without = set(lacking)
        return [path for path in paths if (path[0].device, path[0].interface) not in without]

    def _between_vrfs(self, one: Traffic, search: Search, found: list[Path], cut: set[Node]) -> list[Path]:
        """Returns paths for the interfaces that no path begins or ends at unless it leads from one VRF into another."""
        begun = {(path[0].device, path[0].interface) for path in found}
        ended = {(path[-1].device, path[-1].interface) for path in found}
        alone = [node for node in search.starts if node not in begun]
        unreached = [node for node in search.ends if node not in ended]
        more = simple_paths(self.topology, replace(search, starts=alone, keeps_vrf=False), cut) if alone else []
        more += simple_paths(self.topology, replace(search, ends=unreached, keeps_vrf=False), cut) if unreached else []
        crossed = {(each.device, each.interface) for path in more for each in (path[0], path[-1])}
        joined = [node for node in dict.fromkeys([*alone, *unreached]) if node in crossed and self.topology.vrf(node)]
        if more:
            which = " (" + listed(joined) + ")" if found and joined else ""
            self.findings.append(Finding(Grade.PREMISE, one.place, f"'from' and 'to' of '{one.name}' are in different "
                                         f"VRFs{which}: routes are taken to lead from one to the other within a device",
                                         "give the interfaces that join the VRFs in a table of links"))
        self.named |= {node: one for node in [*alone, *unreached] if node not in crossed}
        return more

    def report_named(self) -> None:
        """Reports interfaces that the project names and that no path of any traffic begins or ends at."""
        ends = {(each.device, each.interface) for piece in self.pieces for path in piece.paths if path
                for each in (path[0], path[-1])}
        for (device, name), one in self.named.items() if self.pieces else ():
            if (device, name) not in ends:
                self.findings.append(Finding(Grade.NOT_CARRIED_OVER, one.place, f"'{one.name}' names {device} {name}, and no "
                                             "path begins or ends there: its packets are not declared",
                                             "give the links of its device, or remove it of the role"))

    def nodes(self, texts: tuple[str, ...], place: Place) -> list[Node]:
        """Returns the interfaces that roles and `DEVICE:INTERFACE` stand for."""
        roles = {role.name: role for role in self.project.roles}
        found: dict[Node, None] = {}
        for text in texts:
            if text in roles and not roles[text].interfaces:
                self.wrong(roles[text].place, f"role '{text}' names no interface", "name interfaces as \"DEVICE:INTERFACE\"")
            elif text in roles:
                for entry in roles[text].interfaces:
                    found |= dict.fromkeys(self.topology.matching(entry, roles[text].place))
            elif ":" in text:
                found |= dict.fromkeys(self.topology.matching(text, place))
            else:
                self.wrong(place, f"no role '{text}'", nearest(text, roles) if roles else "write DEVICE:INTERFACE")
        return list(found)

    def _regions(self, one: Traffic) -> list[tuple[int, Span | None, Span | None]]:
        """Returns version, source and destination of each region of a traffic."""
        sources, destinations = self._spans(one.sources, one.place), self._spans(one.destinations, one.place)
        versions = {span.version for span in [*sources, *destinations]} or self._versions(one)
        said = one.axes.get("ipVersion")
        found: list[tuple[int, Span | None, Span | None]] = []
        for version in sorted(versions if said is None else {int(said)} & {4, 6}):
            froms: list[Span | None] = [span for span in sources if span.version == version]
            tos: list[Span | None] = [span for span in destinations if span.version == version]
            found += [(version, source, destination) for source in (froms if sources else [None])
                      for destination in (tos if destinations else [None])]
        if not found:
            self.wrong(one.place, f"source and destination of '{one.name}' are of different versions of IP",
                       "give both of one version")
        return found

    def _spans(self, texts: tuple[str, ...], place: Place) -> list[Span]:
        found = []
        for text in texts:
            span = span_of(text)
            if span is None:
                self.wrong(place, f"'{text}' is no address, prefix or range", "write 10.1.0.0/16 or 10.1.0.1-10.1.0.9")
            else:
                found.append(span)
        return sorted(found)

    def _versions(self, one: Traffic) -> set[int]:
        """Returns the versions that the ends have addresses of; 4 where no addresses are known."""
        nodes = self.nodes((*one.start, *one.end), one.place)
        ends = [self.topology.interfaces[device][name] for device, name in nodes]
        found = {6 if ":" in text else 4 for end in ends for text in end.addresses}
        found |= {version for end in ends for version in end.has}
        if not found and "ipVersion" not in one.axes:
            self.findings.append(Finding(Grade.PREMISE, one.place, f"'{one.name}' names no addresses, and none of its interfaces "
                                         "is known to have any: it is taken to be IPv4", "add source, destination or version"))
        return found or {4}

    def _by_tables(self, one: Traffic, walker: Walker, source: Span, destination: Span) -> None:
        targets = cut(destination, self._cuts(destination))
        if len(targets) > MOST_PIECES and one.merge != "paths":
            raise Unusable(one.place, f"the tables cut '{one.name}' into {len(targets)} pieces", "write merge = \"paths\" for it, "
                           "or give a smaller destination")
        given = self.nodes(one.ingress, one.place)
        sources = [source] if one.ingress else cut(source, self._cuts(source))
        united: dict[Path, None] = {}
        starting: dict[str, tuple[Span, list[Node]]] = {}
        for part in sources:
            starts = given if one.ingress else walker.ingress(part.first)
            if not starts:
                continue
            self._remember(starting, part, starts)
            for target in targets:
                goal = Target(target.first, str(target), one.place)
                paths = [path for start in starts for path in walker.paths(start, goal)]
                if one.merge == "paths":
                    united |= dict.fromkeys(paths)
                else:
                    self._add(one, target.version, part, target, list(dict.fromkeys(paths)))
        if one.merge == "paths":
            self._add(one, destination.version, source, destination, list(united))
        if not one.ingress:
            self._assumed(one, starting)

    def _remember(self, starting: dict[str, tuple[Span, list[Node]]], part: Span, starts: list[Node]) -> None:
        key = str(starts)
        known = starting.get(key)
        is_next = known and known[0].high + 1 == part.low
        starting[key if is_next or not known else f"{key} {part}"] = (
            Span(part.version, known[0].low, part.high) if known and is_next else part, starts)

    def _assumed(self, one: Traffic, starting: dict[str, tuple[Span, list[Node]]]) -> None:
        for part, starts in starting.values():
            where = ", ".join(f"{device}:{interface}" for device, interface in starts)
            self.findings.append(Finding(Grade.PREMISE, one.place, f"'{one.name}' names no ingress: packets from {part} are "
                                         f"taken to come in where routes to them lead out: {where}"))
        if not starting:
            self.wrong(one.place, f"no route to the source of '{one.name}' leads out of the network: no ingress is found",
                       "name its ingress")

    def _cuts(self, span: Span) -> list[int]:
        """Returns where routes of any table begin or end within a span."""
        found: set[int] = set()
        tables = [table for moments in self.tables.values() for each in moments for table in each.by_vrf.values()]
        for version, length, low in (key for table in tables for key in table.routes):
            if version == span.version:
                found |= {low, low + (1 << ((32 if version == 4 else 128) - length))}
        return [at for at in found if span.low < at <= span.high]


def backwards(one: Traffic) -> Traffic:
    """Returns the traffic that goes back: it comes in where this one goes out, and its own tables lead it."""
    axes = {BACK.get(element, element): value for element, value in one.axes.items()}
    paths = tuple(tuple(_turned(text) for text in reversed(path)) for path in one.paths)
    return replace(one, name=one.name + " back", sources=one.destinations, destinations=one.sources, axes=axes,
                   start=one.end, end=one.start, ingress=(), paths=paths, batfish=())


def _turned(text: str) -> str:
    head, _, direction = text.rpartition(":")
    return head + (":egress" if direction == "ingress" else ":ingress")


def _written(path: tuple[str, ...], topology: Topology, place: Place) -> Path:
    """Returns a path of crossings that are written as `DEVICE:INTERFACE:ingress`."""
    found: list[Crossing] = []
    for text in path:
        head, _, direction = text.rpartition(":")
        if direction not in ("ingress", "egress") or ":" not in head:
            raise Unusable(place, f"'{text}' is no crossing", "write DEVICE:INTERFACE:ingress or DEVICE:INTERFACE:egress")
        for node in topology.matching(head, place)[:1]:
            found.append(crossing(node, Direction(direction)))
    return tuple(found)


def declare(devices: list[Device], project: Project) -> Declaration:
    """Returns the declaration of a project, with all crossings that are known of."""
    topology = topology_of(devices, project)
    making = _Declaring(project, topology, tables_of(project, topology))
    for one in project.traffic:
        making.traffic(one)
    making.report_named()
    making.pieces += outer_pieces(topology, making.tables, project, making.pieces)
    control = control_pieces(topology, Place(project.file))
    if project.paths.control:
        making.pieces += control
    elif control:
        making.findings.append(Finding(Grade.NOTE, Place(project.file), "packets that the routers themselves send and receive "
                                       "are in no class", "write control = true under [paths] to declare them as exempt"))
    metered = metered_by(devices)
    pieces = []
    for piece in making.pieces:
        try:
            paths = tuple(dict.fromkeys(
                each for path in piece.paths for each in layered(path, topology, metered, piece.place)))
            pieces.append(replace(piece, paths=beginnings(paths) if project.paths.may_drop else paths))
        except Unusable as error:
            making.findings.append(error.finding)
    findings = list(topology.findings)
    for moments in making.tables.values():
        findings += [each for tables in moments for each in tables.findings]
    ends = {(path[-1].device, path[-1].interface) for piece in making.pieces for path in piece.paths if path}
    findings += making.findings + report_subnets(topology, ends) + _premises(devices, project, pieces, topology)
    return Declaration(pieces, topology, list(dict.fromkeys(findings)), _meaning(making))


def _premises(devices: list[Device], project: Project, pieces: list[Piece], topology: Topology) -> list[Finding]:
    """Returns what the configurations of devices on the paths say that paths cannot follow."""
    on_paths = {one.device for piece in pieces for path in piece.paths for one in path}
    entries = {entry.name: entry for entry in project.devices}
    metered = metered_by(devices)
    found: list[Finding] = []
    for device in devices:
        if device.name in on_paths and device.name in entries:
            entry = entries[device.name]
            sources = project.sources(entry.config, entry.place)
            translation = translation_of(device, sources, topology)
            found += premises(device, sources, {Topic.NAT} if translation else set())
            found += report_translation(translation, pieces, metered) if translation else []
    return found


def _meaning(making: _Declaring) -> list[str]:
    found = []
    if making.uses_roles:
        found.append("Packets take paths between the interfaces that 'from' and 'to' name, over the links that are known, and "
                     "meet no device twice.")
    if making.uses_tables:
        found.append("Packets take the paths of the routing tables that were given: that they take no others is not shown.")
    return found + meaning(making.project.paths.may_drop)
