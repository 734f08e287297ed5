"""What the customers send: packets that a fixed generator draws, the same each time."""
from __future__ import annotations

import json
from dataclasses import asdict, dataclass, replace
from pathlib import Path
from typing import Callable, Iterable, Iterator

from lab.namespaces import COLLECTING, MANAGEMENT, SERVER_ADDRESSES
from lab.totals import Totals, add

SEED = 20261129
SERVERS = tuple(SERVER_ADDRESSES.values())
CLASSES_OF_SERVICE = (0, 8, 184)
# The ports between which hosts talk before anything is metered.
ACQUAINTING = (4000, 5000)


@dataclass(frozen=True)
class Packet:
    """A packet that a host sends. `payload` is the length of what follows the UDP header."""

    host: str
    source: str
    destination: str
    source_port: int
    destination_port: int
    payload: int
    tos: int = 0
    ttl: int = 64
    may_fragment: bool = False

    @property
    def length(self) -> int:
        """The length that the IP header gives, of IPv6 with the header itself."""
        return (40 if ":" in self.source else 20) + 8 + max(4, self.payload)


Plan = Callable[[int], list[Packet]]


def numbers(seed: int) -> Iterator[int]:
    """Yields the numbers of a linear congruential generator (Knuth's MMIX)."""
    while True:
        seed = (seed * 6364136223846793005 + 1442695040888963407) % 2**64
        yield seed >> 33


def usual(count: int) -> list[Packet]:
    """Returns packets of 32 to 1,427 octets from ten customers' addresses to two servers."""
    draw = numbers(SEED)
    found = []
    for number in range(count):
        net = 1 + number % 2
        found.append(Packet(f"c{net}", f"10.{net}.0.{11 + next(draw) % 5}", SERVERS[next(draw) % 2], 4000 + next(draw) % 10,
                            5000 + next(draw) % 10, 4 + next(draw) % 1400, CLASSES_OF_SERVICE[next(draw) % 3]))
    return found


def fragments(count: int) -> list[Packet]:
    """Returns the usual packets, which routers may fragment."""
    return [replace(one, may_fragment=True) for one in usual(count)]


def short_lived(count: int) -> list[Packet]:
    """Returns the usual packets; one in ten has a TTL of 1 or 2 and dies in edge or core."""
    return [one if number % 10 else replace(one, ttl=1 + number // 10 % 2) for number, one in enumerate(usual(count))]


def to_customers(count: int) -> list[Packet]:
    """Returns packets of customer 1 to customer 2."""
    return [replace(one, host="c1", source=f"10.1.0.{11 + number % 5}", destination=f"10.2.0.{11 + number // 5 % 5}")
            for number, one in enumerate(usual(count))]


def both_versions(count: int) -> list[Packet]:
    """Returns the usual packets, five over IPv4 and five over IPv6 in turn."""
    return [over_ipv6(one) if number // 5 % 2 else one for number, one in enumerate(usual(count))]


def over_ipv6(one: Packet) -> Packet:
    """Returns a packet over IPv6, whose addresses have the numbers of those of IPv4."""
    return replace(one, source=as_ipv6(one.source), destination=as_ipv6(one.destination), payload=max(4, one.payload - 20))


def as_ipv6(address: str) -> str:
    """Returns 2001:db8:NET::HOST of 10.NET.0.HOST."""
    _, net, _, host = address.split(".")
    return f"2001:db8:{net}::{host}"


def in_vlan(count: int) -> list[Packet]:
    """Returns the usual packets; customer 3, in a VLAN, sends what customer 1 would."""
    return [replace(one, host="c3", source=one.source.replace("10.1.0.", "10.1.100.")) if one.host == "c1" else one
            for one in usual(count)]


def acquainting(packets: Iterable[Packet]) -> list[Packet]:
    """Returns a short packet for each host, source and destination of a plan, between the ports 4000 and 5000."""
    ends = dict.fromkeys((one.host, one.source, one.destination) for one in packets)
    return [Packet(host, source, destination, *ACQUAINTING, 20) for host, source, destination in ends]


def exporting() -> list[Packet]:
    """Returns a packet from each host of the management network to each host of a collector, by which exports go."""
    return [Packet(host, source, MANAGEMENT[collector], *ACQUAINTING, 20) for host, source in MANAGEMENT.items()
            for collector in COLLECTING if host not in (collector, "bill")]


def write(packets: list[Packet], path: Path) -> None:
    """Writes a plan for the agent that sends."""
    path.write_text(json.dumps([asdict(one) for one in packets]), encoding="utf-8")


def sums(packets: list[Packet]) -> Totals:
    """Returns packets and octets of a plan, by source address."""
    found: Totals = {}
    for one in packets:
        add(found, one.source, 1, one.length)
    return found
