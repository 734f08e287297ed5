"""The parts of a network that packets pass through, and the interfaces by which they come in and leave."""
from __future__ import annotations

import re
from dataclasses import dataclass, field, replace

from once_tools.coverage import directions
from once_tools.load import load_devices
from once_tools.merge import merge
from once_tools.model import Crossing, Device, Direction, Finding, Interface, Place
from once_tools.network import is_leading, leading_exporters
from once_tools.paths.routes import Tables
from once_tools.paths.setup import CAPTURING, tables_of, topology_of
from once_tools.paths.topology import Node, Topology
from once_tools.project import Project
from once_tools.proposal.dynamic import add_dynamic
from once_tools.readers.bridges import bridges_of

LOOPBACK = re.compile(r"(loopback|lo\d*(\.\d+)?$|dum(my)?\d|null\d|system$|local$)", re.I)
MANAGEMENT_PORT = re.compile(r"(mgmt|management)", re.I)
JUNOS_MANAGEMENT = re.compile(r"(fxp|em|me|vme)\d*(\.\d+)?$", re.I)
UNMETERED = "its device meters nothing, and no link to one that meters is known"
MANAGEMENT = re.compile(r"\b(mgmt|management|oob|out.of.band)\b|^mgmt", re.I)


@dataclass
class Edge:
    """An interface by which packets come into a network or leave it, with its role and what suggests it."""

    node: Node
    interface: Interface
    role: str = ""
    reason: str = ""
    is_sure: bool = True

    @property
    def text(self) -> str:
        """The interface as a project names it."""
        return f"{self.node[0]}:{self.node[1]}"


@dataclass
class Area:
    """Devices that links join, or bridges that patch ports join, with the interfaces by which packets come in or leave. A host
    is known by its meter alone: these are the interfaces that it meters, and it has others."""

    names: list[str]
    edges: list[Edge] = field(default_factory=list)
    is_host: bool = False
    is_switch: bool = False


@dataclass
class Surroundings:
    """What is known of the network of a project: its devices, links and tables, the crossings that are metered at all and for
    the report, and the parts of the network. `left_out` are interfaces that no traffic is proposed for, each with the reason;
    `linked` are those that links join, `unlinked` those that are said to lead to a device without a link that is known."""

    project: Project
    devices: dict[str, Device]
    topology: Topology
    tables: dict[str, list[Tables]]
    metered: set[Crossing]
    for_report: set[Crossing]
    versions: dict[str, set[int]]
    areas: list[Area] = field(default_factory=list)
    left_out: list[tuple[str, str]] = field(default_factory=list)
    linked: list[str] = field(default_factory=list)
    unlinked: list[str] = field(default_factory=list)

    def has_addresses(self, device: str) -> bool:
        """Returns whether the interfaces of a device are known with their addresses."""
        return any(one.addresses or one.has for one in self.topology.interfaces.get(device, {}).values()
                   if not LOOPBACK.match(one.name))

    def is_metered(self, node: Node, for_report: bool = False) -> bool:
        """Returns whether packets are metered at an interface, in either direction."""
        crossings = self.for_report if for_report else self.metered
        return any(Crossing(*node, one) in crossings for one in (Direction.INGRESS, Direction.EGRESS))


def management(device: str, one: Interface, kind: str) -> bool:
    """Returns whether an interface is for management alone, by its name, its VRF or its description."""
    return bool(MANAGEMENT_PORT.match(one.name) or kind == "junos" and JUNOS_MANAGEMENT.match(one.name)
                or MANAGEMENT.search(one.vrf) or re.match(MANAGEMENT, one.description))


def edges_of(name: str, around: Surroundings) -> list[Edge]:
    """Returns the interfaces of a device by which packets come into the network or leave it."""
    interfaces, found = around.topology.interfaces.get(name, {}), []
    members = {member for one in interfaces.values() for member in one.members}
    parents = {one.parent for one in interfaces.values()}
    kind = around.devices[name].kind if name in around.devices else ""
    has_addresses = around.has_addresses(name)
    for one in interfaces.values():
        node = (name, one.name)
        if one.is_shut or LOOPBACK.match(one.name) or one.name in members:
            continue
        if around.topology.peers.get(node):
            around.linked.append(f"{name}:{one.name}")
        elif management(name, one, kind) and not around.is_metered(node, True):
            around.left_out.append((f"{name}:{one.name}", "for management"))
        elif one.addresses or one.has or not has_addresses or around.is_metered(node, True):
            found.append(Edge(node, one))
        elif one.name not in parents:
            around.left_out.append((f"{name}:{one.name}", "no address is known, and nothing meters it for the report"))
    return found


def groups_of(topology: Topology) -> list[list[str]]:
    """Returns the devices, those that links join together."""
    group = {name: name for name in topology.interfaces}
    for (device, _), ends in topology.peers.items():
        for other, _ in ends:
            old, new = group[other], group[device]
            group = {name: new if one == old else one for name, one in group.items()}
    found: dict[str, list[str]] = {}
    for name, one in group.items():
        found.setdefault(one, []).append(name)
    return list(found.values())


def areas_of(around: Surroundings) -> list[Area]:
    """Returns the parts of the network, without those that meter nothing if others meter."""
    areas: list[Area] = []
    for names in groups_of(around.topology):
        device = around.devices.get(names[0])
        if len(names) == 1 and device and device.kind == "openvswitch":
            areas += bridged(device, around)
            continue
        edges = [edge for name in names for edge in edges_of(name, around)]
        is_host = len(names) == 1 and device is not None and device.kind in CAPTURING and not around.has_addresses(names[0])
        areas.append(Area(names, edges, is_host))
    meters = [one for one in areas if any(around.is_metered(edge.node) for edge in one.edges)
              or any(around.devices[name].points for name in one.names if name in around.devices)]
    for area in areas if meters else []:
        if area not in meters:
            around.left_out += [(edge.text, UNMETERED) for edge in area.edges]
    found = [one for one in (meters or areas) if passes(one, around)]
    if not found:
        found = [replace(one, is_host=len(one.edges) == 1) for one in areas if one.edges]
        texts = {edge.text for area in found for edge in area.edges}
        around.left_out = [one for one in around.left_out if one[0] not in texts]
    return found


def passes(area: Area, around: Surroundings) -> bool:
    """Returns whether packets can pass through a part of the network: it has two interfaces, or one that is metered, and then
    others that are not known."""
    if len(area.edges) == 1 and around.is_metered(area.edges[0].node):
        area.is_host = True
    if area.is_host and area.edges or len(area.edges) > 1:
        return True
    around.left_out += [(edge.text, "no other interface is known by which its packets could leave") for edge in area.edges]
    return False


def bridged(device: Device, around: Surroundings) -> list[Area]:
    """Returns the bridges of a switch, those that patch ports join together."""
    entry = next(one for one in around.project.devices if one.name == device.name)
    edges = {edge.node[1]: edge for edge in edges_of(device.name, around)}
    return [Area(bridges, [edge for name, edge in edges.items() if name in interfaces], is_switch=True)
            for bridges, interfaces in bridges_of(around.project.sources(entry.config, entry.place))]


def crossings_of(device: Device, leading: set[tuple[str, str]] | None) -> set[Crossing]:
    """Returns the crossings that the points of a device see: all, or those for the report."""
    return {Crossing(device.name, name, one) for point in device.points if leading is None or is_leading(device, point, leading)
            for name in point.interfaces for one in directions(point.direction)}


def versions_of(device: Device) -> set[int]:
    """Returns the versions of IP that a device meters."""
    spelled = {one.match.get("ipVersion", "") for point in device.points for one in point.selections}
    return {version for version in (4, 6) if str(version) in spelled or "" in spelled}


def topology_of_project(project: Project) -> Topology:
    """Returns the interfaces of a project's devices, and the links between them."""
    return topology_of(load_devices(project)[0], project)


def surroundings(project: Project) -> Surroundings:
    """Returns what is known of the network of a project without traffic."""
    devices, collectors, _ = load_devices(project)
    versions = {one.name: versions_of(one) for one in devices}
    metered = {one for device in devices for one in crossings_of(device, None)}
    topology = topology_of(devices, project)
    add_dynamic(project, devices, topology)
    tables = tables_of(project, topology)
    report = replace(project.report, key=("sourceIPv4Address",))
    network = merge(replace(project, report=report, findings=list[Finding]()), devices, collectors)
    leading = leading_exporters(network)
    for_report = {one for device in network.devices for one in crossings_of(device, leading)}
    around = Surroundings(project, {one.name: one for one in devices}, topology, tables, metered, for_report, versions)
    around.areas = areas_of(around)
    return around


def partial_meters(around: Surroundings) -> list[tuple[str, Place]]:
    """Returns the interfaces whose meter takes a part of the packets alone, by a filter, each with the filter's line."""
    found: dict[str, Place] = {}
    for device in around.devices.values():
        for point in device.points:
            whole = {one.match.get("ipVersion", "") for one in point.selections if set(one.match) <= {"ipVersion"}}
            parts = [one.place for one in point.selections if one.match.get("ipVersion", "") not in whole]
            for name in point.interfaces if parts else ():
                found.setdefault(f"{device.name}:{name}", parts[0])
    return list(found.items())
