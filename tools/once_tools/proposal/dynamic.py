"""Interfaces whose addresses are not in the configuration: they get one by DHCP or PPP, or borrow that of another interface."""
from __future__ import annotations

import re
from typing import Iterator

from once_tools.model import Device
from once_tools.paths.topology import Topology
from once_tools.project import Project
from once_tools.source import Source

DYNAMIC = re.compile(r"\b(dhcp|dhcp-alloc|dhcp-client|dhcpv6|slaac|autoconf\w*|unnumbered|unnumbered-address|unnumbered-interface|"
                     r"negotiated|ppp-negotiate|pppoe-client)\b")
SIX = re.compile(r"v6|inet6|slaac|autoconf")
BLOCK = re.compile(r"\s*interface (\S+)")
UNIT = re.compile(r"interfaces (\S+) unit (\d+)")
WORD = re.compile(r"[^\s='\"]+")


def named_in(source: Source, known: set[str]) -> Iterator[tuple[str, int]]:
    """Yields the interfaces that lines of a configuration give such an address, and the version of IP. An interface is named
    in the line itself, or by the last line that begins one."""
    block = ""
    for line in source.lines():
        begun = BLOCK.match(line)
        block = begun[1] if begun else block if line[:1].isspace() else ""
        if DYNAMIC.search(line) and not line.lstrip().startswith(("!", "#", "no ")):
            names = [f"{one}.{unit}" for one, unit in UNIT.findall(line)] or [one for one in WORD.findall(line) if one in known]
            for name in [block] if block else names[:1]:
                if name in known:
                    yield name, 6 if SIX.search(line) else 4


def add_dynamic(project: Project, devices: list[Device], topology: Topology) -> None:
    """Gives interfaces without an address the versions of IP that they get addresses of otherwise."""
    read = {one.name for one in devices}
    for entry in project.devices:
        interfaces = topology.interfaces[entry.name]
        for source in project.sources(entry.config, entry.place) if entry.name in read else ():
            for name, version in named_in(source, set(interfaces)):
                if not interfaces[name].addresses:
                    interfaces[name].has |= {version}
