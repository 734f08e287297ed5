"""What a scenario is: the meters and collectors that run, what is sent, what the documents say, and what the outcome must be."""
from __future__ import annotations

from contextlib import AbstractContextManager, nullcontext
from dataclasses import dataclass, field
from pathlib import Path
from typing import TYPE_CHECKING, Callable

from lab.collectors import Collector
from lab.exporters import Meter
from lab.namespaces import CUSTOMERS, SERVERS, Cable
from lab.plan import Plan, usual
from lab.verdicts import Expected

if TYPE_CHECKING:
    from lab.running import Session
    from lab.switch import Switch

BILLING = Collector("billing")
# Open vSwitch's IPFIX with a cache, and all packets sampled.
SWITCH_WITH_CACHE = ("sampling=1", "obs_domain_id=7", "obs_point_id=3", "cache_active_timeout=2", "cache_max_flows=4000")
# The interfaces by which customers and servers send.
SENDING = tuple((host, "eth0") for host in (*CUSTOMERS, *SERVERS))
# Sources of packets that the routers send themselves: hellos of OSPF cross the interfaces up0 and down0.
ROUTING = ("10.0.12.1", "10.0.12.2")
ROUTING_OF_UP1 = ("10.0.13.1", "10.0.13.2")
# Neighbour discovery of the routers; a key that ends in a colon stands for all that begin so.
ROUTING_OF_IPV6 = ("fe80:", "2001:db8:12:", "0:0:0:0:0:0:0:0")


@dataclass(frozen=True)
class Sent:
    """What is sent: packets of a plan, with seconds between two of one customer; each `answer_every`th is answered."""

    plan: Plan = usual
    packets: int = 1000
    gap: float = 0.001
    answer_every: int = 4
    is_received: bool = True
    customers_receive_at: tuple[int, int] = (4000, 4009)
    interfaces: tuple[tuple[str, str], ...] = SENDING
    customers: tuple[str, ...] = CUSTOMERS


@dataclass(frozen=True)
class Declared:
    """What the project of once-import declares. `routing` declares the routers' own packets of OSPF as exempt; `paths`
    writes traffic whose paths are in no routing table; `options` are those of the command line."""

    versions: tuple[int, ...] = (4,)
    exempts_servers: bool = False
    protocol: int | None = None
    routing: bool = False
    paths: Callable[["Session"], list[str]] | None = None
    options: tuple[str, ...] = ()
    switch_options: str = ""
    accept: tuple[str, ...] = ()
    aliases: tuple[str, ...] = ()
    project: tuple[str, ...] = ()
    cables: tuple[Cable, ...] = ()


@dataclass(frozen=True)
class Scenario:
    """A scenario.

    `network` changes the lab for its time; `during` is called while packets are sent, and `after_meters` when all meters and
    captures of what is sent have ended. `schedule` writes a schedule for `once run` from the traffic document and the merged
    captures, with the packets at the interfaces that are `watched`; `predicts` is false where documents do not say what a run
    does. `settle` is the time between the arrival of the last packet and the end of the meters: libpcap passes packets on within
    a second. With `ends_early` the time begins when the last packet is sent, whether it has come or not.
    `other_keys` are keys that no declared host has and that must be expected; `others_are_wrong` says that their packets are
    declared as exempt. `gaps` are those that an exporter makes in sequence numbers though nothing is lost. `is_random` says
    that totals may differ from run to run.
    """

    name: str
    title: str
    expected: Expected
    meters: tuple[Meter, ...] = ()
    switch: tuple[str, ...] | None = None
    collectors: tuple[Collector, ...] = (BILLING,)
    sent: Sent = field(default_factory=Sent)
    declared: Declared = field(default_factory=Declared)
    network: Callable[["Switch"], AbstractContextManager[None]] = lambda _: nullcontext()
    changes_network: bool = False
    during: Callable[["Session"], None] | None = None
    after_meters: Callable[["Session"], None] | None = None
    watched: tuple[tuple[str, str], ...] = ()
    schedule: Callable[["Session", Path, Path], str] | None = None
    billed: str = "billing"
    kills_meters: bool = False
    starts_late: float = 0.0
    settle: float = 1.6
    ends_early: bool = False
    other_keys: tuple[str, ...] = ()
    others_are_wrong: bool = False
    gaps: int = 0
    predicts: bool = True
    is_random: bool = False
    is_core: bool = False

    def collector(self, name: str) -> Collector:
        """Returns a collector by its name."""
        return next(one for one in self.collectors if one.name == name)

    def exempt_hosts(self) -> tuple[str, ...]:
        """Returns the hosts whose packets must not be counted."""
        return ("s1", "s2") if self.declared.exempts_servers else ()


def folder_of(out: Path, scenario: Scenario) -> Path:
    """Returns the folder of what a scenario leaves."""
    return out / scenario.name
