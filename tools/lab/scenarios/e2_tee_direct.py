"""The records reach the collector by a mediator and directly."""
from lab.checks import multiple
from lab.collectors import Collector
from lab.exporters import BILLING as TO_BILLING
from lab.exporters import Meter
from lab.scenario import BILLING, ROUTING, Scenario
from lab.verdicts import REFUTATION, Expected

SCENARIO = Scenario(
    "e2-tee-direct", "the same, and pmacctd sends to the collector directly too", Expected(REFUTATION, check=multiple(2)),
    meters=(Meter("edge", ("up0",), ("172.31.0.1:4741", TO_BILLING)),),
    collectors=(Collector("tee", 4741, receivers=(TO_BILLING,)), BILLING), other_keys=ROUTING)
