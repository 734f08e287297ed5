"""Two meters on one path have a collector each."""
from lab.collectors import Collector
from lab.exporters import Meter
from lab.scenario import BILLING, ROUTING, Scenario
from lab.verdicts import CERTIFICATE, Expected

SCENARIO = Scenario(
    "f2-both", "two pmacctd on one path, each to a collector of its own, one billed", Expected(CERTIFICATE),
    meters=(Meter("edge", ("up0",)), Meter("core", ("srv0",), ("172.31.0.1:4740",), domain=2)),
    collectors=(BILLING, Collector("other", 4740)), other_keys=ROUTING)
