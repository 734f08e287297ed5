"""Receivers at hosts: they take what is sent there, and answer. What came is compared with what was sent, so that no packet is
lost in the network unseen."""
from __future__ import annotations

import re
import time
from dataclasses import dataclass
from typing import Iterable, Mapping, Sequence

from lab.plan import Packet
from lab.programs import Group, Running, agent
from lab.verdicts import Loss

# Each packet goes through the routers edge and core, which both take 1 off its TTL.
ROUTERS_OF_A_PATH = 2
COUNTS = re.compile(r"^received (\d+) answered \d+$", re.MULTILINE)


@dataclass(frozen=True)
class Place:
    """Ports of a host at which packets are received; of those whose numbers are multiples of `every` each is answered, and
    with 0 none."""

    host: str
    first: int
    last: int
    every: int = 0

    def has(self, host: str, port: int) -> bool:
        """Returns whether a port of a host belongs to it."""
        return host == self.host and self.first <= port <= self.last


@dataclass(frozen=True)
class Receiver:
    """A receiver that runs, and how many packets must come to it."""

    place: Place
    running: Running
    due: int

    def received(self) -> int:
        """Returns how many packets have come."""
        return received_in(self.running.text())


def received_in(text: str) -> int:
    """Returns how many packets have come by the last count that a receiver printed; none before the first."""
    found = COUNTS.findall(text)
    return int(found[-1]) if found else 0


def arrivals(packets: Iterable[Packet], places: Sequence[Place], owners: Mapping[str, str]) -> list[int]:
    """Returns how many packets of a plan, and answers to them, must come to each place. `owners` has the host of each address.
    Packets with a TTL that the routers use up do not count."""
    found = [0] * len(places)

    def came(host: str, port: int) -> Place | None:
        for number, place in enumerate(places):
            if place.has(host, port):
                found[number] += 1
                return place
        return None

    for number, one in enumerate(packets):
        at = came(owners.get(one.destination, ""), one.destination_port) if one.ttl > ROUTERS_OF_A_PATH else None
        if at and at.every and number % at.every == 0:
            came(one.host, one.source_port)
    return found


def start(group: Group, places: Sequence[Place], packets: Sequence[Packet], owners: Mapping[str, str]) -> list[Receiver]:
    """Starts a receiver at each place, over IPv6 too if packets of a plan have addresses of it."""
    addresses = ["0.0.0.0", *(["::"] if any(":" in one.source for one in packets) else [])]
    found = []
    for place, due in zip(places, arrivals(packets, places, owners)):
        words = agent("receive", str(place.first), str(place.last), str(place.every), *addresses)
        found.append(Receiver(place, group.start(place.host, words, f"receive-{place.host}-{place.first}.log", "ready"), due))
    return found


def lost(receivers: Iterable[Receiver]) -> list[Loss]:
    """Returns what has not come to receivers."""
    counts = [(one.place, one.received(), one.due) for one in receivers]
    return [Loss(f"receiver at {place.host}", f"{received} of {due} packets came") for place, received, due in counts
            if received < due]


def wait(receivers: Sequence[Receiver], seconds: float) -> None:
    """Returns when all that is due has come to receivers, or after some seconds."""
    deadline = time.monotonic() + seconds
    while lost(receivers) and time.monotonic() < deadline:
        time.sleep(0.02)
