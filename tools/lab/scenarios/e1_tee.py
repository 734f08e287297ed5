"""A mediator that forwards all messages."""
from lab.collectors import Collector
from lab.exporters import BILLING as TO_BILLING
from lab.exporters import Meter
from lab.scenario import BILLING, ROUTING, Scenario
from lab.verdicts import CERTIFICATE, Expected

SCENARIO = Scenario(
    "e1-tee", "pmacctd, nfacctd with tee, nfacctd", Expected(CERTIFICATE),
    meters=(Meter("edge", ("up0",), ("172.31.0.1:4741",)),),
    collectors=(Collector("tee", 4741, receivers=(TO_BILLING,)), BILLING), other_keys=ROUTING, is_core=True)
