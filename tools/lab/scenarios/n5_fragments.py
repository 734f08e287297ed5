"""Packets are fragmented before the meter."""
from lab.checks import exactly, in_fragments
from lab.exporters import Meter
from lab.networks import small_mtu
from lab.plan import fragments
from lab.scenario import Scenario, Sent
from lab.verdicts import CERTIFICATE, Expected, Verdict

SCENARIO = Scenario(
    "n5-fragments", "600 octets of MTU between the routers, and the meter after them",
    Expected(CERTIFICATE, (Verdict.DIFFERED,), "no packet is fragmented before a meter",
             exactly(lambda _: in_fragments(fragments(1000)), "the sums of the fragments")),
    meters=(Meter("core", ("srv0",)),), sent=Sent(fragments, answer_every=0), network=small_mtu, changes_network=True)
