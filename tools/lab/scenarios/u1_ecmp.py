"""Packets take one of two uplinks, and both are metered."""
from lab.exporters import Meter
from lab.networks import second_uplink
from lab.scenario import ROUTING, ROUTING_OF_UP1, Scenario
from lab.schedules import by_uplink
from lab.verdicts import CERTIFICATE, Expected

SCENARIO = Scenario(
    "u1-ecmp", "equal routes over two uplinks, both metered", Expected(CERTIFICATE),
    meters=(Meter("edge", ("up0", "up1")),), network=second_uplink, changes_network=True,
    watched=(("edge", "up0"), ("edge", "up1")), schedule=by_uplink, other_keys=(*ROUTING, *ROUTING_OF_UP1))
