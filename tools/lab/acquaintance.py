"""Has hosts talk before anything is metered, until no packet is lost: then routes, neighbours and the switch's table are known,
and the kernel queues no packet to resolve an address."""
from __future__ import annotations

import shutil
from pathlib import Path
from typing import Mapping, Sequence

from lab import plan, receivers
from lab.plan import ACQUAINTING, Packet
from lab.programs import Group, LabError, agent
from lab.receivers import Place
from lab.verdicts import Loss

ATTEMPTS, SECONDS = 8, 3.0
SOURCE_PORT, DESTINATION_PORT = ACQUAINTING


def places_of(packets: Sequence[Packet], owners: Mapping[str, str]) -> list[Place]:
    """Returns where packets and the answers to them come to."""
    destinations = dict.fromkeys(owners[one.destination] for one in packets)
    senders = dict.fromkeys(one.host for one in packets)
    return [*(Place(host, DESTINATION_PORT, DESTINATION_PORT, 1) for host in destinations),
            *(Place(host, SOURCE_PORT, SOURCE_PORT) for host in senders)]


def talk(folder: Path, packets: Sequence[Packet], owners: Mapping[str, str]) -> list[Loss]:
    """Sends packets once, has each answered, and returns what did not come."""
    shutil.rmtree(folder, ignore_errors=True)
    folder.mkdir(parents=True)
    group = Group(folder)
    try:
        started = receivers.start(group, places_of(packets, owners), packets, owners)
        group.wait_until_ready()
        plan.write(list(packets), folder / "plan.json")
        hosts = dict.fromkeys(one.host for one in packets)
        senders = [group.start(host, agent("send", str(folder / "plan.json"), host, "0.001"), f"send-{host}.log") for host in hosts]
        for sender in senders:
            if sender.process.wait(60):
                raise LabError(f"a sender failed: {sender.text().strip()[-300:]}")
        receivers.wait(started, SECONDS)
        return receivers.lost(started)
    finally:
        group.kill_rest()


def acquaint(folder: Path, packets: Sequence[Packet], owners: Mapping[str, str]) -> None:
    """Has each source of a plan talk with each of its destinations until nothing is lost; raises `LabError` if some is each time."""
    short = plan.acquainting(packets)
    lost: list[Loss] = []
    for _ in range(ATTEMPTS):
        lost = talk(folder, short, owners)
        if not lost:
            return
    raise LabError(f"the network loses packets before anything is metered: {'; '.join(map(str, lost))}")
