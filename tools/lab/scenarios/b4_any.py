"""A meter at all interfaces of a router."""
from lab.checks import multiple
from lab.exporters import Meter
from lab.scenario import ROUTING, ROUTING_OF_UP1, Scenario
from lab.verdicts import REFUTATION, Expected

SCENARIO = Scenario(
    "b4-any", "one pmacctd in edge at `any`", Expected(REFUTATION, check=multiple(2)),
    meters=(Meter("edge", ("any",)),), other_keys=(*ROUTING, *ROUTING_OF_UP1, "172.31.0.2"))
