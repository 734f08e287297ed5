"""The topology and the routing tables of a project, from its files."""
from __future__ import annotations

import re

from once_tools.model import Device, Interface, Place, Unusable
from once_tools.paths import links
from once_tools.paths.bridging import join_ports
from once_tools.paths.interfaces import read_interfaces
from once_tools.paths.routes import Hop, Route, Table, Tables, read_routes
from once_tools.paths.topology import Node, Topology
from once_tools.paths.tunnels import join_tunnels
from once_tools.project import DeviceEntry, Project


CAPTURING = ("pmacctd", "softflowd")


def topology_of(devices: list[Device], project: Project) -> Topology:
    """Returns the devices with their interfaces, and the links between them."""
    topology = Topology(capturing={device.name for device in devices if device.kind in CAPTURING})
    known = {device.name: device for device in devices}
    for entry in project.devices:
        topology.interfaces.setdefault(entry.name, {})
        device = known.get(entry.name)
        topology.aliases[entry.name] = [*entry.aliases, *([device.hostname] if device and device.hostname else [])]
        _add_interfaces(topology, entry, device, project)
        join_ports(topology, entry, device, project)
    _add_links(topology, project)
    return topology


def _add_interfaces(topology: Topology, entry: DeviceEntry, device: Device | None, project: Project) -> None:
    for interface in device.interfaces if device else []:
        topology.add_interface(entry.name, interface)
    try:
        for source in project.sources(entry.addresses, entry.place):
            for interface in read_interfaces(source):
                same = topology.interfaces[entry.name]
                name = interface.name if interface.name in same or not same else topology.interface(
                    entry.name, interface.name, interface.place) if _is_short(topology, entry.name, interface.name) else None
                interface.name = name or interface.name
                topology.add_interface(entry.name, interface)
    except Unusable as error:
        topology.findings.append(error.finding)
    for point in device.points if device else []:
        for name in point.interfaces:
            if name not in topology.interfaces[entry.name]:
                topology.add_interface(entry.name, Interface(name, point.place))


def _is_short(topology: Topology, device: str, name: str) -> bool:
    return len(topology.same_names(device, name)) == 1


def _add_links(topology: Topology, project: Project) -> None:
    try:
        for source in project.sources(project.links.table, project.links.place):
            links.add_table(source, topology)
    except Unusable as error:
        topology.findings.append(error.finding)
    links.add_pairs(project.links.pairs, project.links.place, topology)
    _join_pairs(topology)
    join_tunnels(topology)
    said: dict[Node, tuple[Node, Place]] = {}
    for device, files, place in [*((entry.name, entry.lldp, entry.place) for entry in project.devices),
                                 ("", project.links.lldp, project.links.place)]:
        try:
            for source in project.sources(files, place):
                links.add_neighbours(device or _device_of(source.name, topology), links.read_neighbours(source), topology, said)
        except Unusable as error:
            topology.findings.append(error.finding)
    if project.links.subnets:
        links.add_subnets(topology)


def _device_of(file: str, topology: Topology) -> str:
    """Returns the device whose name a file's name has: an output of neighbours does not say whose it is."""
    found = [name for name in topology.interfaces if name in file.rpartition("/")[2]]
    if not found:
        raise Unusable(Place(file), "has no device's name in its file name", "give it as 'lldp' of its device")
    return max(found, key=len)


def _join_pairs(topology: Topology) -> None:
    """Joins the interfaces of one device that lead to each other: IOS' vasileft and vasiright."""
    for device, interfaces in topology.interfaces.items():
        for name in interfaces:
            left = re.match(r"(?i)vasileft(\d+)$", name)
            for other in interfaces if left else ():
                right = re.match(r"(?i)vasiright(\d+)$", other)
                if left and right and left[1] == right[1]:
                    topology.add_peers((device, name), (device, other))


def tables_of(project: Project, topology: Topology) -> dict[str, list[Tables]]:
    """Returns the routing tables of the devices that have some, those of each file apart: files may be of several moments.
    Their interfaces are brought to the names in use."""
    found: dict[str, list[Tables]] = {}
    for entry in project.devices:
        try:
            for source in project.sources(entry.routes, entry.place):
                tables = Tables()
                found.setdefault(entry.name, []).append(tables)
                read_routes(source, tables)
                for table in tables.by_vrf.values():
                    _rename(entry.name, table, topology)
        except Unusable as error:
            topology.findings.append(error.finding)
    return found


def _rename(device: str, table: Table, topology: Topology) -> None:
    names: dict[str, str] = {}
    for key, route in table.routes.items():
        hops = []
        for hop in route.hops:
            if hop.interface and hop.interface not in names:
                known = topology.interfaces[device]
                name = hop.interface
                if name not in known and _is_short(topology, device, name):
                    name = topology.interface(device, name, route.place) or name
                elif name not in known:
                    topology.add_interface(device, Interface(name, route.place))
                names[hop.interface] = name
            hops.append(Hop(names.get(hop.interface, ""), hop.gateway, hop.vrf))
        table.routes[key] = Route(route.prefix, tuple(hops), route.place)
