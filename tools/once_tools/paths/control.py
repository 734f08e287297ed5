"""Packets of the routers themselves and to them, as exempt classes."""
from __future__ import annotations

from once_tools.model import Direction, Place
from once_tools.paths.pieces import Piece
from once_tools.paths.regions import Span
from once_tools.paths.topology import Node, Topology, address_of
from once_tools.paths.ways import Path, crossing


def control_pieces(topology: Topology, place: Place) -> list[Piece]:
    """Returns exempt traffic for each address of an interface: what it sends over its link, and what comes in for it."""
    found = []
    for device, interfaces in topology.interfaces.items():
        for name, interface in interfaces.items():
            for text in interface.addresses if not interface.is_shut else []:
                address = address_of(text)
                if address is None or address.is_loopback or interface.name.casefold().startswith(("lo", "dummy")):
                    continue
                span = Span(address.version, int(address), int(address))
                node = (device, name)
                title = f"control of {device} {name}"
                found.append(Piece(f"{title} out", address.version, span, None, _out(topology, node), place, (), True))
                if node not in topology.peers:
                    paths: tuple[Path, ...] = ((crossing(node, Direction.INGRESS),),)
                    found.append(Piece(f"{title} in", address.version, None, span, paths, place, (), True))
    return found


def _out(topology: Topology, node: Node) -> tuple[Path, ...]:
    left = crossing(node, Direction.EGRESS)
    ends = topology.peers.get(node, [])
    return tuple((left, crossing(end, Direction.INGRESS)) for end in ends) or ((left,),)
