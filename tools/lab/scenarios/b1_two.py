"""Two pmacctd on one path."""
from lab.checks import multiple
from lab.exporters import Meter
from lab.scenario import ROUTING, Scenario
from lab.verdicts import REFUTATION, Expected

SCENARIO = Scenario(
    "b1-two", "two pmacctd on one path, one collector", Expected(REFUTATION, check=multiple(2)),
    meters=(Meter("edge", ("up0",)), Meter("core", ("srv0",), domain=2)), other_keys=ROUTING, is_core=True)
