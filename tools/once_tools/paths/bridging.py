"""Bridges on the way from one device to the next: a frame crosses their ports, and no routing table names them."""
from __future__ import annotations

from once_tools.model import Crossing, Device, Direction
from once_tools.paths.topology import Address, Node, Topology
from once_tools.project import DeviceEntry, Project
from once_tools.readers.bridges import bridges_of

# The crossings of ports, with the interface of the next device; None where the frame leaves the known network.
Way = tuple[tuple[Crossing, ...], Node | None]


def join_ports(topology: Topology, entry: DeviceEntry, device: Device | None, project: Project) -> None:
    """Notes which ports of a switch belong to one bridge."""
    if device is None or device.kind != "openvswitch":
        return
    for _, names in bridges_of(project.sources(entry.config, entry.place)):
        ports = [(entry.name, name) for name in sorted(names)]
        topology.bridged |= {port: [other for other in ports if other != port] for port in ports}


def over_bridges(topology: Topology, out: Node, wanted: Address | None) -> list[Way]:
    """Returns the ways of a frame that leaves by an interface whose link leads to a bridge, to the interfaces that have an
    address. If no link leads to one, the frame may leave by any port without a link. Without a bridge there is no way."""
    owners = topology.owners.get(wanted, []) if wanted else []
    found: list[Way] = []
    open_ends: list[Way] = []

    def cross(port: Node, way: tuple[Crossing, ...], seen: frozenset[Node]) -> None:
        came = (*way, Crossing(port[0], port[1], Direction.INGRESS))
        for other in topology.bridged[port]:
            left = (*came, Crossing(other[0], other[1], Direction.EGRESS))
            peers = topology.peers.get(other, [])
            if not peers:
                open_ends.append((left, None))
            for peer in peers:
                if peer in owners:
                    found.append((left, peer))
                elif peer in topology.bridged and peer not in seen:
                    cross(peer, left, seen | {port, other, peer})

    for peer in topology.peers.get(out, []):
        if peer in topology.bridged:
            cross(peer, (), frozenset({peer}))
    return found or open_ends
