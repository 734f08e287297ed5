"""Customers send over IPv4 and IPv6."""
from lab.exporters import Meter
from lab.networks import ipv6_everywhere
from lab.plan import both_versions
from lab.scenario import ROUTING, ROUTING_OF_IPV6, Declared, Scenario, Sent
from lab.verdicts import CERTIFICATE, Expected

SCENARIO = Scenario(
    "i1-ipv6", "customers send over IPv4 and IPv6; one pmacctd at edge up0", Expected(CERTIFICATE),
    meters=(Meter("edge", ("up0",)),), sent=Sent(both_versions), declared=Declared((4, 6)), network=ipv6_everywhere,
    changes_network=True, other_keys=(*ROUTING, *ROUTING_OF_IPV6))
