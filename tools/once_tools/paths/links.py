"""Links between devices: from a table, the project itself, LLDP and CDP, and small subnets that two devices share."""
from __future__ import annotations

import csv
import ipaddress
import json
import re
from dataclasses import dataclass
from typing import Any, Iterator

from once_tools.model import Grade, Finding, Place, Unusable
from once_tools.paths.topology import Node, Topology
from once_tools.source import Source

COLUMNS = ["a", "a_interface", "b", "b_interface"]
MOST_HOSTS = 8
Network = ipaddress.IPv4Network | ipaddress.IPv6Network


@dataclass(frozen=True)
class Seen:
    """A neighbour that a device sees at an interface. `ports` are the neighbour's names of its own port, best first."""

    interface: str
    system: str
    ports: tuple[str, ...]
    place: Place


def add_table(source: Source, topology: Topology) -> None:
    """Adds the links of a CSV file with the columns a, a_interface, b, b_interface."""
    rows = csv.reader(source.lines())
    header = [cell.strip() for cell in next(rows, [])]
    if not set(COLUMNS) <= set(header):
        raise Unusable(Place(source.name, 1, source.place(1).text), "the first line must name the columns "
                       "a,a_interface,b,b_interface", "write that line")
    for row in rows:
        place = source.place(rows.line_num)
        if not any(cell.strip() for cell in row) or row[0].lstrip().startswith("#"):
            continue
        if len(row) < len(header):
            topology.wrong(place, f"has {len(row)} cells, and the header has {len(header)}", "add what is missing")
            continue
        cells = dict(zip(header, (cell.strip() for cell in row)))
        ends = [_end(topology, cells[device], cells[device + "_interface"], place) for device in "ab"]
        if ends[0] and ends[1]:
            topology.add_peers(ends[0], ends[1])


def add_pairs(pairs: tuple[tuple[str, ...], ...], place: Place, topology: Topology) -> None:
    """Adds the links that a project names itself, as pairs of `DEVICE:INTERFACE`."""
    for pair in pairs:
        ends = [lifted(topology, node, place) for text in pair for node in topology.matching(text, place)[:1]]
        if len(ends) == 2 and ends[0] and ends[1]:
            topology.add_peers(ends[0], ends[1])


def _end(topology: Topology, device: str, interface: str, place: Place) -> Node | None:
    known = topology.device(device, place)
    if known is None:
        topology.findings.append(Finding(Grade.NOTE, place, f"'{device}' is no device of the project: the other end of this "
                                         "link leads out of the network"))
        return None
    name = topology.interface(known, interface, place)
    return None if name is None else lifted(topology, (known, name), place)


def lifted(topology: Topology, node: Node, place: Place) -> Node | None:
    """Returns the bundle that an interface is a member of, or the interface itself."""
    bundles = topology.bundles.get(node, [])
    if len(bundles) > 1:
        topology.wrong(place, f"{node[0]} {node[1]} is a member of {', '.join(bundles)}, and the link is of one of them",
                       "name the VLAN's or bundle's interface in a table of links")
        return None
    return (node[0], bundles[0]) if bundles else node


def read_neighbours(source: Source) -> list[Seen]:
    """Returns the neighbours in an output of LLDP or CDP."""
    if source.text.lstrip()[:1] == "{":
        try:
            return list(_lldpcli(json.loads(source.text), Place(source.name)))
        except (ValueError, KeyError, TypeError, AttributeError, IndexError, RecursionError) as error:
            raise Unusable(Place(source.name), "has not the form of `lldpcli -f json show neighbors`",
                           "save the command's whole output") from error
    found = list(_ios_details(source))
    if not found:
        raise Unusable(Place(source.name), "has no neighbours in a form that is known", "give the output of `lldpcli -f json "
                       "show neighbors`, `show lldp neighbors detail` or `show cdp neighbors detail`")
    return found


def _lldpcli(found: Any, place: Place) -> Iterator[Seen]:
    interfaces = found["lldp"].get("interface", [])
    for entry in interfaces if isinstance(interfaces, list) else [interfaces]:
        for interface, one in entry.items():
            port = one.get("port", {})
            identity = port.get("id", {})
            ports = [str(identity.get("value", ""))] if identity.get("type") in ("ifname", "local", "ifalias") else []
            ports += [str(port["descr"])] if port.get("descr") else []
            for system in one.get("chassis", {}):
                if system != "id":
                    yield Seen(str(interface), str(system), tuple(ports), place)


def _ios_details(source: Source) -> Iterator[Seen]:
    interface, system, start = "", "", Place(source.name)
    ports: list[str] = []
    for number, line in enumerate([*source.lines(), "-----"], 1):
        if re.match(r"\s*-{5,}\s*$", line):
            if interface and system:
                yield Seen(interface, system, tuple(ports), start)
            interface, system, ports = "", "", []
        if cdp := re.match(r"Interface: ([^,]+),\s+Port ID \(outgoing port\): (\S+)", line):
            interface, ports, start = cdp[1], [cdp[2]], source.place(number)
        elif local := re.match(r"Local (?:Intf|Interface): (\S+)", line):
            interface, start = local[1], source.place(number)
        elif name := re.match(r"(?:Device ID|System Name): (\S+)", line):
            system = name[1].partition("(")[0]
        elif port := re.match(r"Port (?:id|ID): (\S+)", line):
            ports = [port[1], *ports]
        elif description := re.match(r"Port Description: (\S.*)$", line):
            ports.append(description[1].strip())


def add_neighbours(device: str, seen: list[Seen], topology: Topology, known: dict[Node, tuple[Node, Place]]) -> None:
    """Adds links that a device sees. `known` remembers what the other ends said: ends that disagree are wrong."""
    for one in seen:
        there = topology.device(one.system, one.place)
        if there is None or there == device:
            continue
        here = topology.interface(device, one.interface, one.place)
        port = _port(topology, there, one)
        if here is None or port is None:
            continue
        a, b = lifted(topology, (device, here), one.place), lifted(topology, (there, port), one.place)
        if a is None or b is None or topology.peers.get(a) and b not in topology.peers[a] and a not in known:
            continue  # a table's link goes first
        for end, other in ((a, b), (b, a)):
            said = known.get(end)
            if said and said[0] != other and said[1] != one.place:
                topology.wrong(one.place, f"says that {_text(end)} leads to {_text(other)}, and {said[1].file} says that it "
                               f"leads to {_text(said[0])}", "give this link in a table of links")
                return
        known[a], known[b] = (b, one.place), (a, one.place)
        topology.add_peers(a, b)


def _port(topology: Topology, device: str, seen: Seen) -> str | None:
    for name in seen.ports:
        if name in topology.interfaces[device] or topology.has_alias(device, name):
            return topology.interface(device, name, seen.place)
    for name in seen.ports[:1]:
        if re.search(r"\d", name):
            return topology.interface(device, name, seen.place)
    topology.wrong(seen.place, f"the neighbour {device} at {seen.interface} names its port by no interface",
                   "give this link in a table of links, or have the neighbour send interface names")
    return None


def _text(node: Node) -> str:
    return f"{node[0]} {node[1]}"


def add_subnets(topology: Topology) -> None:
    """Joins interfaces of different devices that share a subnet of at most 8 hosts, where no link is known: first those of
    VRFs of one name, then the others, since names of VRFs mean nothing to a neighbour."""
    shared: dict[object, list[Node]] = {}
    for node, network in _networks(topology):
        if network.num_addresses <= MOST_HOSTS:
            shared.setdefault(network, []).append(node)
    linked = set(topology.peers)
    for nodes in shared.values():
        for a, b in _pairs(nodes, linked):
            if topology.vrf(a) == topology.vrf(b):
                topology.add_peers(a, b)
        for a, b in _pairs(nodes, set(topology.peers)):
            topology.add_peers(a, b)


def report_subnets(topology: Topology, ends: set[Node]) -> list[Finding]:
    """Returns a premise for each subnet of more than 8 hosts by which packets may pass from an interface of `ends`, at which
    paths end, to another device: without a link, no path does."""
    shared: dict[tuple[str, object], list[Node]] = {}
    for node, network in _networks(topology):
        if network.num_addresses > MOST_HOSTS:
            shared.setdefault((topology.vrf(node), network), []).append(node)
    found = []
    for (_, subnet), nodes in shared.items():
        apart = [pair for pair in _pairs(nodes, set(topology.peers)) if set(pair) & ends]
        if apart:
            names = ", ".join(dict.fromkeys(_text(node) for pair in apart for node in pair))
            place = topology.interfaces[apart[0][0][0]][apart[0][0][1]].place
            found.append(Finding(Grade.PREMISE, place, f"{names} are in one subnet, {subnet}, which is too large to be taken "
                                 "for a link: no packet is taken to pass from one to another", "give their links in a table "
                                 "of links if packets do"))
    return found


def _networks(topology: Topology) -> Iterator[tuple[Node, Network]]:
    """Yields the subnets of the interfaces that are up."""
    for device, interfaces in topology.interfaces.items():
        for interface in interfaces.values():
            for text in interface.addresses if not interface.is_shut else []:
                network = _network(text)
                if network:
                    yield (device, interface.name), network


def _pairs(nodes: list[Node], linked: set[Node]) -> Iterator[tuple[Node, Node]]:
    """Yields the pairs of interfaces of different devices of which neither has a link."""
    for at, a in enumerate(nodes):
        for b in nodes[at + 1:]:
            if a[0] != b[0] and a not in linked and b not in linked:
                yield a, b


def _network(text: str) -> Network | None:
    try:
        network = ipaddress.ip_interface(text).network
    except ValueError:
        return None
    return network if network.num_addresses >= 2 and not network.is_link_local else None
