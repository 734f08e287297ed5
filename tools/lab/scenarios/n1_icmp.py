"""Servers answer with ICMP errors."""
from lab.exporters import Meter
from lab.scenario import ROUTING, Scenario, Sent
from lab.verdicts import CERTIFICATE, Expected

SCENARIO = Scenario(
    "n1-icmp", "nobody listens at the servers' ports: they answer with ICMP errors", Expected(CERTIFICATE),
    meters=(Meter("edge", ("up0",)),), sent=Sent(is_received=False), other_keys=ROUTING, is_random=True)
