"""Tunnels: their ends as links, and the outer packets that they make as traffic of its own."""
from __future__ import annotations

from typing import Iterator

from once_tools.model import Direction, Interface, Unusable
from once_tools.paths.pieces import Piece
from once_tools.paths.regions import Span
from once_tools.paths.routes import Tables
from once_tools.paths.topology import Address, Node, Topology, address_of
from once_tools.paths.ways import Path, Target, Walker, crossing
from once_tools.project import Project

GRE = "47"
OUTER_PROTOCOLS = ("47", "50", "4", "41")
MOST_DEVICES = 8


def ends_of(topology: Topology, device: str, interface: Interface) -> tuple[Address, Address] | None:
    """Returns source and destination of a tunnel's outer packets."""
    source, destination = address_of(interface.tunnel_source), address_of(interface.tunnel_destination)
    if source is None and interface.tunnel_source:
        known = topology.interfaces[device]
        names = [interface.tunnel_source] if interface.tunnel_source in known else topology.same_names(
            device, interface.tunnel_source)
        texts = [text for name in names[:1] for text in known[name].addresses]
        found = [address_of(text) for text in texts]
        source = next((one for one in found if one and destination and one.version == destination.version), None)
    return (source, destination) if source and destination and source.version == destination.version else None


def tunnels(topology: Topology) -> Iterator[tuple[Node, Address, Address]]:
    """Yields the tunnels whose ends are known."""
    for device, interfaces in topology.interfaces.items():
        for name, interface in interfaces.items():
            ends = ends_of(topology, device, interface) if interface.tunnel_destination and not interface.is_shut else None
            if ends:
                yield (device, name), *ends


def join_tunnels(topology: Topology) -> None:
    """Joins the two ends of each tunnel: inner packets go from one to the other."""
    found = list(tunnels(topology))
    for at, (node, source, destination) in enumerate(found):
        for other, its_source, its_destination in found[at + 1:]:
            if (source, destination) == (its_destination, its_source):
                topology.add_peers(node, other)


def outer_pieces(topology: Topology, tables: dict[str, list[Tables]], project: Project, pieces: list[Piece]) -> list[Piece]:
    """Returns the outer packets of tunnels that declared traffic goes through, unless the project declares them. They are
    exempt, since their inner packets are counted, unless the project bills them."""
    crossed = {(one.device, one.interface): piece.place for piece in pieces for path in piece.paths for one in path
               if one.direction is Direction.EGRESS}
    is_billed = any(one.billed for one in project.traffic)
    found = []
    for node, source, destination in tunnels(topology):
        if node not in crossed or any(_declares(piece, source) for piece in pieces):
            continue
        target = Target(destination, str(destination), crossed[node])
        try:
            if node[0] in tables:
                paths = Walker(topology, tables).paths_from(node[0], "", target)
            else:
                paths = list(_over_links(topology, node[0], destination))
        except Unusable:
            continue
        paths = [path for path in paths if path]
        if paths:
            spans = [Span(one.version, int(one), int(one)) for one in (source, destination)]
            found.append(Piece(f"tunnel of {node[0]} {node[1]}", source.version, spans[0], spans[1], tuple(paths),
                               crossed[node], (("protocolIdentifier", GRE),), not is_billed))
    return found


def _declares(piece: Piece, source: Address) -> bool:
    protocol = dict(piece.axes).get("protocolIdentifier")
    span = piece.source
    return protocol in OUTER_PROTOCOLS and (span is None or span.version == source.version
                                            and span.low <= int(source) <= span.high)


def _over_links(topology: Topology, device: str, destination: Address) -> Iterator[Path]:
    """Yields all simple paths from a device to the one that owns an address, not through tunnels."""
    targets = {owner[0] for owner in topology.owners.get(destination, [])}

    def walk(here: str, path: Path, seen: tuple[str, ...]) -> Iterator[Path]:
        for name, interface in topology.interfaces.get(here, {}).items():
            if interface.tunnel_destination or interface.is_shut:
                continue
            for end in topology.peers.get((here, name), []):
                if end[0] in seen or len(seen) >= MOST_DEVICES:
                    continue
                further = path + (crossing((here, name), Direction.EGRESS), crossing(end, Direction.INGRESS))
                if end[0] in targets:
                    yield further
                else:
                    yield from walk(end[0], further, (*seen, end[0]))

    yield from walk(device, (), (device,))
