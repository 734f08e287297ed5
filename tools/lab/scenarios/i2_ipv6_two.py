"""Customers send over IPv4 and IPv6, and two meters are on their path."""
from lab.checks import multiple
from lab.exporters import Meter
from lab.networks import ipv6_everywhere
from lab.plan import both_versions
from lab.scenario import ROUTING, ROUTING_OF_IPV6, Declared, Scenario, Sent
from lab.verdicts import REFUTATION, Expected

SCENARIO = Scenario(
    "i2-ipv6-two", "the same, with a second pmacctd at core down0", Expected(REFUTATION, check=multiple(2)),
    meters=(Meter("edge", ("up0",)), Meter("core", ("down0",), domain=2)), sent=Sent(both_versions), declared=Declared((4, 6)),
    network=ipv6_everywhere, changes_network=True, other_keys=(*ROUTING, *ROUTING_OF_IPV6))
