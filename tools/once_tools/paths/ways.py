"""Ways through the network: over all simple paths between roles, and along routing tables."""
from __future__ import annotations

import ipaddress
from dataclasses import dataclass, field

from once_tools.model import Crossing, Direction, Finding, Grade, Interface, Place, Unusable
from once_tools.paths.bridging import Way, over_bridges
from once_tools.paths.routes import Hop, Tables
from once_tools.paths.topology import Address, Node, Topology

Path = tuple[Crossing, ...]
Seen = tuple[tuple[str, str], ...]  # devices with their routing instances
MOST_PATHS = 100_000
MOST_STEPS = 200_000
MOST_RECURSION = 8


def crossing(node: Node, direction: Direction) -> Crossing:
    """Returns the crossing of an interface in a direction."""
    return Crossing(node[0], node[1], direction)


@dataclass(frozen=True)
class Search:
    """What paths between interfaces are looked for: all that meet no device and VRF twice, over at most `hops` devices."""

    starts: list[Node]
    ends: list[Node]
    hops: int
    hairpin: bool
    place: Place
    keeps_vrf: bool = True


def simple_paths(topology: Topology, search: Search, cut: set[Node]) -> list[Path]:
    """Returns the paths of a search, in the order of the configurations. The interfaces at which paths go on that are longer
    than asked for are added to `cut`."""
    found: dict[Path, None] = {}
    targets, steps = set(search.ends), 0
    exits: dict[str, list[Interface]] = {}

    def walk(node: Node, path: Path, seen: tuple[tuple[str, str], ...]) -> None:
        nonlocal steps
        steps += 1
        if steps > MOST_STEPS:
            raise Unusable(search.place, f"has more than {MOST_STEPS} ways to look at",
                           "give routing tables for this traffic, or fewer hops")
        here = path + (crossing(node, Direction.INGRESS),)
        if node[0] not in exits:
            exits[node[0]] = _exits(topology, node[0], targets)
        for out in _ways_out(topology, node, exits[node[0]], search):
            left = here + (crossing(out, Direction.EGRESS),)
            if out in targets:
                found[left] = None
            if len(found) > MOST_PATHS:
                raise Unusable(search.place, f"has more than {MOST_PATHS} paths",
                               "give routing tables for this traffic, or fewer hops")
            for peer in topology.peers.get(out, []) if out != node else []:
                place = (peer[0], topology.vrf(peer))
                if place not in seen and len(seen) < search.hops:
                    walk(peer, left, (*seen, place))
                elif place not in seen:
                    cut.add(peer)

    for start in search.starts:
        walk(start, (), ((start[0], topology.vrf(start)),))
    return list(found)


def _exits(topology: Topology, device: str, targets: set[Node]) -> list[Interface]:
    """Returns the interfaces of a device that are up and are a target or lead to another device."""
    return [one for name, one in topology.interfaces.get(device, {}).items()
            if not one.is_shut and ((device, name) in targets or topology.peers.get((device, name)))]


def _ways_out(topology: Topology, node: Node, exits: list[Interface], search: Search) -> list[Node]:
    """Returns the exits of a device by which what came in at an interface may leave."""
    vrf = topology.vrf(node)
    return [(node[0], one.name) for one in exits if (one.name != node[1] or search.hairpin)
            and (one.vrf == vrf or not search.keeps_vrf)]


@dataclass(frozen=True)
class Target:
    """Where packets go: an address, and in words all those that no table distinguishes from it."""

    address: Address
    what: str
    place: Place

    @property
    def is_single(self) -> bool:
        """Whether the address is the only one."""
        return self.what == str(self.address)


@dataclass
class Walker:
    """Follows packets along routing tables. Findings say where packets are dropped or go in circles."""

    topology: Topology
    tables: dict[str, list[Tables]]
    drops_loops: bool = False
    findings: dict[Finding, None] = field(default_factory=dict)

    def hops(self, device: str, vrf: str, address: Address) -> tuple[list[tuple[Hop, bool]], bool]:
        """Returns the next hops for an address, and whether a table has none. Each has an interface, and says whether the
        route is connected. Several tables are of several moments: the packet may follow any of them."""
        found: dict[tuple[Hop, bool], None] = {}
        asked = [tables for tables in self.tables.get(device, ())
                 if vrf in tables.by_vrf and address.version in tables.by_vrf[vrf].lengths]
        has_none = not asked
        for tables in asked:
            here = self._resolved(tables, device, vrf, address, 0)
            has_none = has_none or not here
            found |= dict.fromkeys(here)
        return list(found), has_none

    def _resolved(self, tables: Tables, device: str, vrf: str, address: Address, depth: int) -> list[tuple[Hop, bool]]:
        table = tables.by_vrf.get(vrf)
        route = table.lookup(address.version, int(address)) if table else None
        found: list[tuple[Hop, bool]] = []
        for hop in route.hops if route else ():
            if hop.interface:
                found.append((hop, hop.gateway is None and self._is_own_subnet(device, hop.interface, address)))
            elif hop.gateway and depth < MOST_RECURSION:
                other = vrf if hop.vrf is None else hop.vrf
                for each, is_connected in self._resolved(tables, device, other, hop.gateway, depth + 1):
                    found.append((Hop(each.interface, hop.gateway if is_connected else each.gateway or hop.gateway), False))
        return found

    def _is_own_subnet(self, device: str, interface: str, address: Address) -> bool:
        known = self.topology.interfaces.get(device, {}).get(interface)
        networks = [ipaddress.ip_interface(text).network for text in known.addresses] if known else []
        return any(address in network for network in networks if network.version == address.version)

    def next_nodes(self, device: str, hop: Hop, is_connected: bool, address: Address) -> list[Node]:
        """Returns the interfaces by which a packet comes into the next device; nothing where it leaves the network."""
        node = (device, hop.interface)
        if is_connected:
            return [end for end in self.topology.peers.get(node, []) if end in self.topology.owners.get(address, [])]
        return self.topology.next_nodes(node, hop.gateway)

    def ways_on(self, device: str, hop: Hop, is_connected: bool, address: Address) -> list[Way]:
        """Returns the ways to the interfaces by which a packet comes into the next device, over bridges if there are some;
        nothing where it leaves the network at once."""
        ends = self.next_nodes(device, hop, is_connected, address)
        found: list[Way] = [((), end) for end in ends if end not in self.topology.bridged]
        return found + over_bridges(self.topology, (device, hop.interface), address if is_connected else hop.gateway)

    def paths(self, start: Node, target: Target) -> list[Path]:
        """Returns all paths of packets that come in at an interface."""
        found: dict[Path, None] = {}
        self._arrive(start, (), (), target, found)
        return list(found)

    def paths_from(self, device: str, vrf: str, target: Target) -> list[Path]:
        """Returns all paths of packets that a device itself sends."""
        found: dict[Path, None] = {}
        self._leave(device, vrf, (), (), target, found)
        return list(found)

    def _arrive(self, node: Node, path: Path, seen: Seen, target: Target, found: dict[Path, None]) -> None:
        vrf = self.topology.vrf(node)
        here = path + (crossing(node, Direction.INGRESS),)
        is_there = target.is_single and any(owner[0] == node[0] for owner in self.topology.owners.get(target.address, []))
        if is_there:
            found[here] = None
        elif (node[0], vrf) in seen:
            self._loop([one[0] for one in seen] + [node[0]], target)
            found[here] = None
        else:
            self._leave(node[0], vrf, here, seen, target, found)

    def _leave(self, device: str, vrf: str, here: Path, seen: Seen, target: Target, found: dict[Path, None]) -> None:
        hops, has_none = self.hops(device, vrf, target.address)
        if has_none:
            self._drop(device, target)
            found[here] = None
        for hop, is_connected in hops:
            left = here + (crossing((device, hop.interface), Direction.EGRESS),)
            ways = self.ways_on(device, hop, is_connected, target.address)
            if not ways:
                found[left] = None
            for way, end in ways:
                if end is None:
                    found[left + way] = None
                else:
                    self._arrive(end, left + way, (*seen, (device, vrf)), target, found)
            self._note_open(device, hop, ways, target)
        if len(found) > MOST_PATHS:
            raise Unusable(target.place, f"has more than {MOST_PATHS} paths to {target.what}",
                           "cut the traffic into smaller parts")

    def _note_open(self, device: str, hop: Hop, ways: list[Way], target: Target) -> None:
        names = ", ".join(f"{way[-1].device} {way[-1].interface}" for way, end in ways if end is None)
        if names:
            self.findings[Finding(Grade.PREMISE, target.place, f"packets to {target.what} leave {device} {hop.interface} for a "
                                  f"bridge, and no link leads to their host: they are taken to leave by any of {names}",
                                  "give the addresses of the host, and its link to the bridge")] = None

    def _drop(self, device: str, target: Target) -> None:
        if device in self.tables:
            finding = Finding(Grade.NOTE, target.place, f"{device} drops packets to {target.what}: it has no route for them, "
                              "or one that discards")
        else:
            finding = Finding(Grade.WRONG, target.place, f"packets to {target.what} reach {device}, whose routing table is "
                              "not given", "add routes to this device, or declare the traffic with 'from' and 'to'")
        self.findings[finding] = None

    def _loop(self, devices: list[str], target: Target) -> None:
        grade = Grade.NOTE if self.drops_loops else Grade.WRONG
        todo = "" if self.drops_loops else "correct the routes, or write loops = \"drop\" if such packets may die there"
        says = f"packets to {target.what} go in a circle: {' > '.join(devices)}"
        self.findings[Finding(grade, target.place, says, todo)] = None

    def ingress(self, address: Address) -> list[Node]:
        """Returns the interfaces by which routes to an address lead out of the network."""
        found = set()
        for device, moments in self.tables.items():
            for vrf in {vrf for tables in moments for vrf in tables.by_vrf}:
                for hop, is_connected in self.hops(device, vrf, address)[0]:
                    ways = self.ways_on(device, hop, is_connected, address)
                    found |= {(way[-1].device, way[-1].interface) for way, end in ways if end is None}
                    if not ways:
                        found.add((device, hop.interface))
        return sorted(found)
