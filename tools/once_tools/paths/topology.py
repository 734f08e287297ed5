"""Devices, their interfaces, and which interface leads to which."""
from __future__ import annotations

import difflib
import ipaddress
import re
from dataclasses import dataclass, field
from fnmatch import fnmatchcase

from once_tools.model import Finding, Grade, Interface, Place
from once_tools.paths.spellings import Spellings, letters_of

Node = tuple[str, str]  # a device and one of its interfaces
Address = ipaddress.IPv4Address | ipaddress.IPv6Address

# Names that are near to a wrong one are looked up for this number of wrong names: each lookup compares all names.
MOST_NEAR = 50


@dataclass
class Topology:
    """What is known of the network between the devices. Interfaces are in the order of their configurations; `bundles` are
    the VLANs and bundles that an interface is a member of; `capturing` are the devices whose meters capture frames, so that
    they see packets of a VLAN's interface at its main interface too; `bridged` are the other ports of a port's bridge."""

    interfaces: dict[str, dict[str, Interface]] = field(default_factory=dict)
    aliases: dict[str, list[str]] = field(default_factory=dict)
    peers: dict[Node, list[Node]] = field(default_factory=dict)
    owners: dict[Address, list[Node]] = field(default_factory=dict)
    findings: list[Finding] = field(default_factory=list)
    capturing: set[str] = field(default_factory=set)
    bundles: dict[Node, list[str]] = field(default_factory=dict)
    bridged: dict[Node, list[Node]] = field(default_factory=dict)
    _spellings: dict[str, Spellings] = field(default_factory=dict)
    _near: int = 0

    def add_interface(self, device: str, interface: Interface) -> None:
        """Adds an interface, or what is new of one that is known."""
        if interface.name not in self.interfaces.setdefault(device, {}):
            self._add_names(device, interface)
        known = self.interfaces[device].setdefault(interface.name, interface)
        readable = [text for text in interface.addresses if is_interface_address(text)]
        for text in interface.addresses:
            if text not in readable and re.search(r"\d", text):
                self.findings.append(Finding(Grade.NOT_CARRIED_OVER, interface.place, f"'{text}' of {device} "
                                             f"{interface.name} is no address with a length: links and paths do not know of "
                                             "it", "correct the address"))
        known.addresses = [text for text in dict.fromkeys([*known.addresses, *readable]) if is_interface_address(text)]
        for text in readable:
            address = address_of(text)
            if address and not interface.is_shut:
                nodes = self.owners.setdefault(address, [])
                if (device, interface.name) not in nodes:
                    nodes.append((device, interface.name))

    def _add_names(self, device: str, interface: Interface) -> None:
        self._spellings.setdefault(device, Spellings()).add(interface)
        for member in dict.fromkeys(interface.members):
            self.bundles.setdefault((device, member), []).append(interface.name)

    def same_names(self, device: str, name: str) -> list[str]:
        """Returns the interfaces of a device that a short or other spelling may mean."""
        return self._spellings[device].same(name) if device in self._spellings else []

    def has_alias(self, device: str, name: str) -> bool:
        """Returns whether a name is an alias of an interface of a device."""
        return device in self._spellings and self._spellings[device].has_alias(name)

    def add_peers(self, a: Node, b: Node) -> None:
        """Joins two interfaces by a link."""
        for one, other in ((a, b), (b, a)):
            ends = self.peers.setdefault(one, [])
            if other not in ends:
                ends.append(other)

    def wrong(self, place: Place, says: str, todo: str) -> None:
        """Adds a finding for which no document can be written."""
        self.findings.append(Finding(Grade.WRONG, place, says, todo))

    def device(self, name: str, place: Place) -> str | None:
        """Returns the device of this name: exactly, by an alias, or without the case and the domain."""
        if name in self.interfaces:
            return name
        folded = name.casefold()
        host = folded.partition(".")[0]
        found = [one for one in self.interfaces
                 if folded in (alias.casefold() for alias in [one, *self.aliases.get(one, [])])]
        found = found or [one for one in self.interfaces if one.casefold().partition(".")[0] == host]
        if len(found) > 1:
            self.wrong(place, f"'{name}' may be any of {', '.join(found)}", "give one of them an alias in the project")
        return found[0] if len(found) == 1 else None

    def is_inventory(self, device: str) -> bool:
        """Whether the device's interfaces are known from a source that lists all of them."""
        return any(one.addresses for one in self.interfaces.get(device, {}).values())

    def interface(self, device: str, name: str, place: Place) -> str | None:
        """Returns the interface that a name stands for, or None after a finding."""
        known = self.interfaces.get(device, {})
        if name in known:
            return name
        found = self.same_names(device, name)
        if len(found) == 1:
            return found[0]
        if len(found) > 1:
            self.wrong(place, f"'{name}' of {device} may be any of {', '.join(found)}", "write the interface's full name")
            return None
        if self.is_inventory(device):
            self._near += 1
            close = difflib.get_close_matches(name, list(known), 1, 0.5) if self._near <= MOST_NEAR else []
            self.wrong(place, f"{device} has no interface '{name}'",
                       f"write '{close[0]}'" if close else "known are: " + ", ".join(list(known)[:12]))
            return None
        self.add_interface(device, Interface(name, place))
        return name

    def matching(self, text: str, place: Place) -> list[Node]:
        """Returns the interfaces that `DEVICE:INTERFACE` stands for, either with patterns."""
        device_text, _, name = text.partition(":")
        if any(mark in text for mark in "*?["):
            found = [(device, one.name) for device, known in self.interfaces.items() if fnmatchcase(device, device_text)
                     for one in known.values() if not one.is_shut and _matches(one, name)]
            if not found:
                self.wrong(place, f"no interface matches '{text}'", "correct the pattern")
            return found
        device = self.device(device_text, place)
        if device is None:
            close = difflib.get_close_matches(device_text, list(self.interfaces), 1, 0.5)
            self.wrong(place, f"no device '{device_text}' has configurations or interfaces",
                       f"write '{close[0]}'" if close else "known are: " + ", ".join(self.interfaces))
            return []
        interface = self.interface(device, name, place)
        if interface is not None and self.interfaces[device][interface].is_shut:
            self.wrong(place, f"interface '{interface}' of {device} is shut", "remove it, or open it")
            return []
        return [] if interface is None else [(device, interface)]

    def vrf(self, node: Node) -> str:
        """Returns the routing instance of an interface."""
        interface = self.interfaces.get(node[0], {}).get(node[1])
        return interface.vrf if interface else ""

    def next_nodes(self, node: Node, gateway: Address | None) -> list[Node]:
        """Returns where packets arrive that leave by an interface for a gateway; nothing where that is outside."""
        ends = self.peers.get(node, [])
        if len(ends) < 2 or gateway is None:
            return ends
        owned = [end for end in ends if end in self.owners.get(gateway, [])]
        return owned or ([] if gateway in self.owners or not is_link_local(gateway) else ends)


def is_interface_address(text: str) -> bool:
    """Whether a text is an address with a length, or an address alone."""
    try:
        ipaddress.ip_interface(text)
    except ValueError:
        return False
    return True


def is_link_local(address: Address) -> bool:
    """Whether an address says nothing of whose it is beyond its link."""
    return address.is_link_local


def address_of(text: str) -> Address | None:
    """Returns the address of `ADDRESS` or `ADDRESS/LENGTH`."""
    try:
        return ipaddress.ip_address(text.partition("/")[0].partition("%")[0])
    except ValueError:
        return None


def _matches(interface: Interface, pattern: str) -> bool:
    if any(fnmatchcase(name, pattern) for name in (interface.name, *interface.aliases)):
        return True
    letters, _ = letters_of(pattern)
    long, _ = letters_of(interface.name)
    if len(letters) < 2 or not long.startswith(letters):
        return False
    at = len(re.match(r"[^0-9*?\[]*", pattern)[0])  # type: ignore[index]
    start = len(re.match(r"[^0-9]*", interface.name)[0])  # type: ignore[index]
    return fnmatchcase(interface.name[start:], pattern[at:])
