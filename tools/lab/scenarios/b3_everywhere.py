"""Each packet is metered where it comes in and where it leaves."""
from lab.checks import multiple
from lab.exporters import Meter
from lab.scenario import Scenario
from lab.verdicts import REFUTATION, Expected

SCENARIO = Scenario(
    "b3-everywhere", "the same without pcap_direction", Expected(REFUTATION, check=multiple(2)),
    meters=(Meter("edge", ("cust1", "cust2")), Meter("core", ("srv0",), domain=2)))
