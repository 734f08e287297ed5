"""Expressions of pcap-filter(7), compared with what libpcap passes."""
from __future__ import annotations

import ipaddress
import random

import pytest

from libpcap import Filter, Packet
from once_tools import boxes
from once_tools.readers.pcap_filter import UnreadFilter, region_of

SOURCES = ["10.0.0.1", "10.1.2.3", "11.0.0.1", "192.168.1.7", "0.0.0.0", "255.255.255.255", "10.11.255.255",
           "10.12.0.0"]
SOURCES_6 = ["2001:db8::1", "2001:db8:1::5", "fe80::1", "ff02::1", "::", "2001:db9::"]
PORTS = [0, 22, 53, 80, 443, 1023, 1024, 65535]
PROTOCOLS = [0, 1, 2, 6, 17, 47, 50, 51, 58, 89, 103, 112, 132, 255]

READ = [
    "", "ip", "ip6", "not ip6", "tcp", "udp or icmp", "icmp6", "igmp", "pim", "vrrp", "ah or esp", "sctp",
    "net 10.0.0.0/8", "not net 10.0.0.0/8", "src net 10.11.0.0/16", "dst net 10.11.0.0/16", "src or dst net 10.0.0.0/8",
    "src and dst net 10.0.0.0/8", "dst or src host 10.1.2.3", "host 10.1.2.3", "src host 10.0.0.1 or 11.0.0.1",
        "net 10",
    "net 192.168.1", "net 10.0.0.0 mask 255.0.0.0", "src 10.0.0.1", "src net (10.0.0.0/8 or 11.0.0.0/8)",
    "src net 10.0.0.0/8 and not src net 10.1.0.0/16", "not src host 10.0.0.1 and 11.0.0.1",
    "not host 10.0.0.1 and 10.1.2.3", "port 53", "tcp port 80 or 443", "src port 53", "udp dst port 53",
        "portrange 22-80",
    "tcp portrange 1024-65535", "src and dst port 53", "ip proto 47", "ip6 proto 58", "ip proto \\tcp", "proto 17",
    "proto \\sctp", "tcp or udp and src net 10.0.0.0/8", "src net 10.0.0.0/8 and tcp or udp",
    "(tcp or udp) and (src net 10.0.0.0/8 or dst net 10.0.0.0/8)", "! ( tcp || udp ) && ip", "!tcp",
        "ip net 10.0.0.0/8",
    "ip host 10.0.0.1", "ip6 net 2001:db8::/32", "net 2001:db8::/32", "src host 2001:db8::1", "net 2001:db8::1",
    "ip multicast", "ip6 multicast", "not (src net 10.0.0.0/8 or dst net 2001:db8::/32)",
    "ip and not (host 10.0.0.1 or host 10.1.2.3)", "src net 0.0.0.0/0",
        "not src net 10.0.0.0/8 and not dst net 10.0.0.0/8",
    "tcp src port 80 and dst port 443", "src host 10.0.0.1 and tcp and port 80 or 22",
]

UNREAD = ["vlan", "vlan 100 and ip", "ether host 00:11:22:33:44:55", "ip[8] > 5", "less 100", "greater 500", "len > 5",
          "host www.example.net", "port domain", "net 10.1.2.3/8", "tcp host 10.0.0.1", "src", "tcp port",
          "host 10.0.0.1 and",
          "(tcp", "tcp)", "tcp udp", "not", "ip6 host 10.0.0.1", "icmp port 5", "tcp[tcpflags] & tcp-syn != 0",
          "host 10.1",
          "portrange 5", "10.1.2.3", "src 10.0.0.0/8", "ip 10.0.0.1", "port 5-6", "port 65536", "ip proto 256",
          "inbound", "mpls", "and tcp", "host 10.0.0.1/32", "proto foo",
          "multicast", "ip broadcast", "(" * 150 + "tcp" + ")" * 150, "\x00", "tcp & udp", "!= 5"]


def packets(seed: int) -> list[Packet]:
    source = random.Random(seed)
    found = []
    for _ in range(400):
        addresses = source.choice([SOURCES, SOURCES_6])
        found.append(Packet(source.choice(addresses), source.choice(addresses), source.choice(PROTOCOLS),
                            source.choice(PORTS), source.choice(PORTS)))
    return found


def holding(region: list[boxes.Box], packet: Packet) -> int:
    """How many boxes of a region hold the packet."""
    version = ipaddress.ip_address(packet.source).version
    values = {f"sourceIPv{version}Address": int(ipaddress.ip_address(packet.source)),
              f"destinationIPv{version}Address": int(ipaddress.ip_address(packet.destination)),
              "protocolIdentifier": packet.protocol, "sourceTransportPort": packet.source_port,
              "destinationTransportPort": packet.destination_port, "ipVersion": version}
    point = boxes.box(**{axis: (value, value) for axis, value in values.items()})
    return sum(boxes.intersection(one, point) is not None for one in region)


@pytest.mark.parametrize("expression", READ)
def test_passes_what_libpcap_passes(expression: str) -> None:
    regions = {version: region_of(expression, version) for version in (4, 6)}
    program = Filter(expression)
    for packet in packets(READ.index(expression)):
        found = holding(regions[ipaddress.ip_address(packet.source).version], packet)
        assert found == int(program.passes(packet)), packet


@pytest.mark.parametrize("expression", UNREAD)
def test_what_is_not_read_is_reported(expression: str) -> None:
    with pytest.raises(UnreadFilter):
        for version in (4, 6):
            region_of(expression, version)


def some_expression(source: random.Random, depth: int = 0) -> str:
    """A random expression of the grammar; libpcap may refuse it."""
    if depth < 3 and source.random() < 0.6:
        left, right = some_expression(source, depth + 1), some_expression(source, depth + 1)
        joined = f"{left} {source.choice(['and', 'or', '&&', '||'])} {right}"
        return source.choice(["(%s)", "%s", "%s", "not (%s)", "not %s"]) % joined
    protocol = source.choice(["", "", "", "ip ", "ip6 ", "tcp ", "udp "])
    direction = source.choice(["", "src ", "dst ", "src or dst ", "src and dst "])
    kind, value = source.choice([("net ", "10.0.0.0/8"), ("net ", "2001:db8::/32"), ("host ", "10.1.2.3"),
                                 ("port ", "53"),
                                 ("portrange ", "22-443"), ("", "10.0.0.1"), ("", "2001:db8::1"), ("net ", "192.168")])
    return source.choice([protocol + direction + kind + value] * 3 + [value, "tcp", "ip", "icmp", "ip proto 47"])


@pytest.mark.parametrize("seed", range(60))
def test_random_expressions_pass_what_libpcap_passes(seed: int) -> None:
    expression = some_expression(random.Random(seed))
    try:
        program = Filter(expression)
    except ValueError:
        program = None
    try:
        regions = {version: region_of(expression, version) for version in (4, 6)}
    except UnreadFilter:
        return
    assert program is not None, f"libpcap refuses {expression!r}"
    for packet in packets(seed):
        found = holding(regions[ipaddress.ip_address(packet.source).version], packet)
        assert found == int(program.passes(packet)), (expression, packet)


def test_source_or_destination_takes_17_disjoint_selections() -> None:
    """10.11.0.0/16 as a source, and as a destination of the 16 prefixes of the other sources."""
    found = boxes.matches(region_of("net 10.11.0.0/16", 4))
    others = list(ipaddress.ip_network("0.0.0.0/0").address_exclude(ipaddress.ip_network("10.11.0.0/16")))
    expected = [{"ipVersion": "4", "sourceIPv4Prefix": "10.11.0.0/16"}]
    expected += [{"ipVersion": "4", "sourceIPv4Prefix": str(one), "destinationIPv4Prefix": "10.11.0.0/16"}
                 for one in sorted(others)]
    assert found == expected


def test_negated_network_takes_64_selections_of_ipv4_and_one_of_ipv6() -> None:
    assert len(boxes.matches(region_of("not net 10.0.0.0/8", 4))) == 64
    assert boxes.matches(region_of("not net 10.0.0.0/8", 6)) == [{"ipVersion": "6"}]
