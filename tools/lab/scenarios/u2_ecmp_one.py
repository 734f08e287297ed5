"""Packets take one of two uplinks, of which one is metered."""
from lab.checks import all_of, at_most_due, packets_between
from lab.exporters import Meter
from lab.networks import second_uplink
from lab.scenario import ROUTING, Scenario
from lab.schedules import by_uplink
from lab.verdicts import REFUTATION, Expected

SCENARIO = Scenario(
    "u2-ecmp-one", "equal routes over two uplinks, one of them metered",
    Expected(REFUTATION, check=all_of(at_most_due(), packets_between(100, 1150))),
    meters=(Meter("edge", ("up0",)),), network=second_uplink, changes_network=True,
    watched=(("edge", "up0"), ("edge", "up1")), schedule=by_uplink, other_keys=ROUTING, is_random=True)
