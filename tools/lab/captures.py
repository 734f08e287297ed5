"""Captures of what hosts send and of the messages on the wire, and tshark's plain sums over them."""
from __future__ import annotations

from pathlib import Path
from typing import Sequence

from lab.exporters import dumpcap
from lab.namespaces import hardware_address
from lab.programs import Group, LabError, Running, path_of, run
from lab.totals import Totals, add

# Neighbour discovery and reports of multicast listeners stay on their link; customers send nothing but UDP over IPv6.
SENT = "ether src {address} and (ip or (ip6 and udp) or (vlan and ip))"


def start_senders(group: Group, interfaces: Sequence[tuple[str, str]]) -> dict[Path, Running]:
    """Starts a capture of what each host sends by an interface."""
    found = {}
    for host, interface in interfaces:
        expression = SENT.format(address=hardware_address(host, interface))
        path = group.folder / f"sent-{host}-{interface}.pcap"
        found[path] = group.start(host, dumpcap(interface, path, expression), f"dumpcap-{host}-{interface}.log", "File:")
    return found


def start_watched(group: Group, interfaces: Sequence[tuple[str, str]]) -> dict[Path, Running]:
    """Starts a capture of all packets of IP at each interface."""
    found = {}
    for host, interface in interfaces:
        path = watched(group.folder, host, interface)
        found[path] = group.start(host, dumpcap(interface, path, "ip"), f"dumpcap-at-{host}-{interface}.log", "File:")
    return found


def watched(folder: Path, host: str, interface: str) -> Path:
    """Returns the path of the capture of all packets at an interface."""
    return folder / f"at-{host}-{interface}.pcap"


def start_wire(group: Group, ports: Sequence[int], interfaces: Sequence[str] = ("mgbr", "lo")) -> dict[str, Running]:
    """Starts captures of the messages that come to the collectors' host, over the network and from itself."""
    expression = " or ".join(f"udp dst port {port}" for port in sorted(set(ports))) + " or icmp"
    return {name: group.start("bill", dumpcap(name, wire(group.folder, name), expression), f"dumpcap-wire-{name}.log", "File:")
            for name in interfaces}


def wire(folder: Path, interface: str) -> Path:
    """Returns the path of the capture of messages at an interface of the collectors' host."""
    return folder / f"wire-{interface}.pcap"


def merge(captures: Sequence[Path], merged: Path) -> None:
    """Merges captures by time into one pcap file."""
    run([path_of("mergecap"), "-F", "pcap", "-w", str(merged), *map(str, captures)])


def only_version(capture: Path, version: int, to: Path) -> None:
    """Writes the packets of one version of IP of a capture into another."""
    run([path_of("tshark"), "-n", "-r", str(capture), "-Y", "ip" if version == 4 else "ipv6", "-F", "pcap", "-w", str(to)])


def field_rows(capture: Path, *fields: str) -> list[list[str]]:
    """Returns fields of a capture's packets, as tshark prints them; of one that occurs twice in a packet the first."""
    words = [path_of("tshark"), "-n", "-r", str(capture), "-o", "ip.defragment:FALSE", "-T", "fields", "-E", "occurrence=f",
             "-E", "separator=,", *(word for name in fields for word in ("-e", name))]
    return [line.split(",") for line in run(words).output.splitlines()]


def plain_sums(capture: Path) -> Totals:
    """Returns tshark's packets and octets by source address, by the lengths that IP headers give; fragments are packets."""
    found: Totals = {}
    for source, length, source6, length6 in field_rows(capture, "ip.src", "ip.len", "ipv6.src", "ipv6.plen"):
        if source:
            add(found, source, 1, int(length))
        elif source6:
            add(found, source6, 1, 40 + int(length6))
        else:
            raise LabError(f"tshark finds a packet without an IP header in {capture}")
    return found


def running_totals(wire_capture: Path, port: int) -> Totals:
    """Returns the sums by source of the running totals (packetTotalCount and octetTotalCount) in the records of the messages
    to a port, as tshark reads them. They mean nothing, but a collector that adds them up has them."""
    fields = ["cflow.srcaddr", "cflow.permanent_packets", "cflow.permanent_octets"]
    words = [path_of("tshark"), "-n", "-r", str(wire_capture), "-d", f"udp.port=={port},cflow", "-Y",
             f"udp.dstport=={port} and not icmp", "-T", "fields", "-E", "separator=/s",
             *(word for name in fields for word in ("-e", name))]
    found: Totals = {}
    for line in run(words).output.splitlines():
        columns = [column.split(",") for column in line.split(" ")]
        if len(columns) == 3 and columns[0] != [""]:
            for source, packets, octets in zip(*columns):
                add(found, source, int(packets), int(octets))
    return found
