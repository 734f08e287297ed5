"""Interfaces, and the monitors that are attached to them."""
from __future__ import annotations

import ipaddress
import re
from dataclasses import dataclass, field, replace

from once_tools.model import Interface, Place, Topic
from once_tools.readers.interface_names import aliases_of, parent_of
from once_tools.readers.ios.flow_lines import is_about_flows
from once_tools.readers.ios.text import expanded, named
from once_tools.readers.notes import Notes
from once_tools.readers.trees import Node


@dataclass(frozen=True)
class Attachment:
    """A monitor on an interface. `family` is 4 or 6; a monitor of "" is classic NetFlow."""

    monitor: str
    sampler: str
    direction: str
    family: int
    interface: str
    place: Place


@dataclass
class Port:
    """An interface with what is attached to it."""

    interface: Interface
    lines: list[Node]
    attached: list[Attachment] = field(default_factory=list)
    has_ipv4: Place | None = None
    has_ipv6: Place | None = None


@dataclass
class Ports:
    """All interfaces of a device, by name, and what is to be reported of them."""

    ports: dict[str, Port] = field(default_factory=dict)
    notes: Notes = field(default_factory=Notes)

    def get(self, name: str, place: Place) -> Port:
        """Returns the interface of a name, made if it is not there."""
        if name not in self.ports:
            interface = Interface(name, place, aliases_of(name), parent=parent_of(name))
            self.ports[name] = Port(interface, [])
        return self.ports[name]


RANGE = re.compile(r"^(.*?)(\d+)\s*-\s*(\d+)$")


def names_of(text: str) -> list[str]:
    """Returns the names that `interface TEXT` or `interface range TEXT` stands for."""
    words = text.split()
    if words[0] != "range":
        return ["".join(words[:2]) if len(words) > 1 and words[1][0].isdigit() else words[0]]
    found: list[str] = []
    for part in " ".join(words[1:]).split(","):
        spelled = re.sub(r"^([A-Za-z-]+)\s+", r"\1", part.strip())
        match = RANGE.match(spelled)
        if match and int(match[3]) - int(match[2]) < 4096:
            found += [f"{match[1].strip()}{one}" for one in range(int(match[2]), int(match[3]) + 1)]
        elif spelled:
            found.append(spelled)
    return found


def read_attachment(ports: Ports, port: Port, line: Node, family: int) -> None:
    """Reads `ip flow monitor M [sampler S] [unicast|multicast] input|output`."""
    words = list(line.words[3:])
    monitor, rest, sampler = words[0] if words else "", words[1:], ""
    if rest[:1] == ["sampler"] and len(rest) > 1:
        sampler, rest = rest[1], rest[2:]
    kinds = [word for word in rest if word in ("unicast", "multicast")]
    rest = [word for word in rest if word not in ("unicast", "multicast")]
    if not monitor or len(rest) != 1 or rest[0] not in ("input", "output"):
        ports.notes.unknown(line.place, "an interface")
        return
    if kinds == ["multicast"]:
        ports.notes.lost(line.place, "multicast packets alone are metered here; the document does not have this monitor",
                         "declare no multicast traffic", Topic.FILTER)
        return
    if kinds == ["unicast"]:
        ports.notes.note(line.place, "unicast packets alone are metered; multicast traffic must not be declared")
    port.attached.append(Attachment(monitor, sampler, rest[0], family, port.interface.name, line.place))


def read_classic(ports: Ports, port: Port, line: Node) -> None:
    """Reads `ip flow ingress`, `ip flow egress` and `ip route-cache flow`."""
    words = line.words
    family = 6 if words[0] == "ipv6" else 4
    direction = "input" if words[1:] in (("flow", "ingress"), ("route-cache", "flow")) else ""
    direction = "output" if words[1:] == ("flow", "egress") else direction
    if not direction:
        ports.notes.unknown(line.place, "an interface")
        return
    port.attached.append(Attachment("", "", direction, family, port.interface.name, line.place))


def read_address(port: Port, line: Node) -> None:
    """Reads `ip address` and `ipv6 address`."""
    words = line.words
    if words[0] == "ip":
        port.has_ipv4 = port.has_ipv4 or line.place
        if len(words) >= 4:
            try:
                length = ipaddress.IPv4Network(f"0.0.0.0/{words[3]}").prefixlen
                port.interface.addresses.append(f"{ipaddress.IPv4Address(words[2])}/{length}")
            except ValueError:
                return
    else:
        port.has_ipv6 = port.has_ipv6 or line.place
        if len(words) >= 3 and "link-local" not in words:
            try:
                port.interface.addresses.append(str(ipaddress.IPv6Interface(words[2])))
            except ValueError:
                return


def add_to_vlans(ports: Ports, name: str, words: tuple[str, ...]) -> None:
    """Makes an interface a member of VLANs that have an interface of their own: `all`, `except LIST`, `add LIST`, `LIST`."""
    vlans = {key[4:]: one for key, one in ports.ports.items() if key.startswith("Vlan")}
    listed = set(expanded(words[-1])) if words else set()
    for number, vlan in vlans.items():
        is_member = True if words == ("all",) else number not in listed if words[:1] == ("except",) else number in listed
        if is_member and name not in vlan.interface.members:
            vlan.interface.members.append(name)


def read_layers(ports: Ports, port: Port, line: Node) -> None:
    """Reads what an interface is part of: a bundle, VLANs, a tunnel."""
    words, name = line.words, port.interface.name
    if line.starts("channel-group") and len(words) > 1:
        ports.get(f"Port-channel{words[1]}", line.place).interface.members.append(name)
    elif line.starts("switchport", "access", "vlan") and len(words) == 4:
        ports.get(f"Vlan{words[3]}", line.place).interface.members.append(name)
    elif line.starts("switchport", "trunk", "allowed", "vlan"):
        add_to_vlans(ports, name, words[4:])
    elif line.starts("switchport", "mode", "trunk") and not any(one.starts("switchport", "trunk", "allowed") for one in
                                                                port.lines):
        add_to_vlans(ports, name, ("all",))
    elif line.starts("encapsulation", "dot1Q") and len(words) > 2 and words[2].isdigit():
        port.interface.vlan = int(words[2])
    elif line.starts("tunnel", "source") and len(words) > 2:
        port.interface.tunnel_source = words[2]
    elif line.starts("tunnel", "destination") and len(words) > 2:
        port.interface.tunnel_destination = words[2]


def read_plain(port: Port, line: Node) -> bool:
    """Reads statements that say what an interface is; returns whether the line was one."""
    words = line.words
    if line.starts("description"):
        port.interface.description = " ".join(words[1:])
    elif words == ("shutdown",):
        port.interface.is_shut = True
    elif words == ("no", "shutdown"):
        port.interface.is_shut = False
    elif words[:2] in (("ip", "address"), ("ipv6", "address"), ("ip", "unnumbered"), ("ipv6", "unnumbered")):
        read_address(port, line)
    elif words[:2] == ("ipv6", "enable"):
        port.has_ipv6 = port.has_ipv6 or line.place
    elif words[:2] == ("vrf", "forwarding") and len(words) == 3 or words[:3] == ("ip", "vrf", "forwarding"):
        port.interface.vrf = words[-1]
    else:
        return False
    return True


def read_flow(ports: Ports, port: Port, line: Node) -> bool:
    """Reads statements about metering; returns whether the line was one."""
    words = line.words
    if words[:3] in (("ip", "flow", "monitor"), ("ipv6", "flow", "monitor")):
        read_attachment(ports, port, line, 6 if words[0] == "ipv6" else 4)
    elif words[:2] in (("ip", "flow"), ("ipv6", "flow")) or words[:3] == ("ip", "route-cache", "flow"):
        read_classic(ports, port, line)
    elif words[:3] == ("datalink", "flow", "monitor"):
        ports.notes.lost(line.place, "frames are metered here by fields of layer 2, and the document does not have this "
                                     "monitor", "use 'ip flow monitor' and 'ipv6 flow monitor'")
    elif words[:2] == ("mpls", "flow") or words[:2] == ("flow", "mpls"):
        ports.notes.lost(line.place, "packets with labels are metered here, and the document does not have this monitor",
                         "meter where packets have no labels", Topic.MPLS)
    elif words[0] == "flow-sampler":
        ports.notes.lost(line.place, "a sample of the packets is metered. A total over a sample is not exact (108); the "
                                     "document meters all packets", "take the sampler off, or name the device under "
                                     "[accept] sampler", Topic.SAMPLER, 108)
    elif is_about_flows(line):
        ports.notes.unknown(line.place, "an interface")
    else:
        return False
    return True


def read_line(ports: Ports, port: Port, line: Node) -> None:
    """Reads a line of an interface; what is neither about metering nor about paths is passed over."""
    if not read_plain(port, line) and not read_flow(ports, port, line):
        read_layers(ports, port, line)


def read_interfaces(nodes: list[Node]) -> Ports:
    """Returns the interfaces of a configuration; sections of one name are one interface, templates are put in."""
    ports = Ports()
    templates = {name.split()[0]: node.children for name, node in named(nodes, "template")}
    for text, node in named(nodes, "interface"):
        for name in names_of(text):
            lines: list[Node] = []
            for line in node.children:
                lines += templates.get(line.words[2], []) if line.starts("source", "template") and len(
                    line.words) > 2 else [line]
            ports.get(name, node.place).lines += lines
    for port in list(ports.ports.values()):
        for line in port.lines:
            read_line(ports, port, line)
    read_vlans(ports, nodes)
    hand_down(ports)
    is_labelled = any(node.starts("mpls") and "autoconfig" in node.words for one in nodes for node in one.walk())
    for port in ports.ports.values():
        tell_versions(port, is_labelled)
    return ports


def tell_versions(port: Port, is_labelled: bool) -> None:
    """Tells an interface which versions of IP are on and off. Packets of either may have labels, so that where there may be
    labels no version is off."""
    statements = [line.words for line in port.lines if line.words[1:2] != ("flow",)]
    may_label = is_labelled or any(words[0] in ("mpls", "tag-switching") for words in statements)
    has6 = any(words[0] == "ipv6" for words in statements)
    port.interface.has = frozenset(version for version, place in ((4, port.has_ipv4), (6, port.has_ipv6)) if place)
    if port.has_ipv4 and not has6 and not may_label:
        port.interface.lacks = frozenset([6])
    elif port.has_ipv6 and not port.has_ipv4 and not may_label:
        port.interface.lacks = frozenset([4])


def hand_down(ports: Ports) -> None:
    """Attaches `ip route-cache flow` of an interface to its subinterfaces too, which it covers; other statements do not."""
    subinterfaces: dict[str, list[Port]] = {}
    for one in ports.ports.values():
        subinterfaces.setdefault(one.interface.parent, []).append(one)
    for port in list(ports.ports.values()):
        below = subinterfaces.get(port.interface.name, [])
        for use in port.attached if below else []:
            if not use.place.text.startswith("ip route-cache flow"):
                ports.notes.premise(use.place, f"packets of the subinterfaces of {port.interface.name} are taken not to be metered "
                                               "here", "compare with 'show flow monitor', and meter at the subinterfaces alone")
                continue
            ports.notes.premise(use.place, "the statement is taken to meter the subinterfaces too, which was not confirmed "
                                           "on each version of IOS", "write 'ip flow ingress' at each subinterface")
            for one in below:
                if not any((other.monitor, other.direction, other.family) == ("", use.direction, use.family)
                           for other in one.attached):
                    one.attached.append(replace(use, interface=one.interface.name))


def read_vlans(ports: Ports, nodes: list[Node]) -> None:
    """Reads `vlan configuration LIST` with monitors, which are taken as monitors on the VLAN's interface."""
    for text, node in named(nodes, "vlan", "configuration"):
        flows = [line for line in node.children if line.words[1:2] == ("flow",)]
        for number in expanded(text.replace(" ", "")) if flows else []:
            port = ports.get(f"Vlan{number}", node.place)
            for line in flows:
                read_line(ports, port, line)
                ports.notes.premise(line.place, f"packets of the VLAN are taken to be metered at Vlan{number}, which was "
                                                "not confirmed on a switch", "compare with 'show flow monitor'")
