"""A mediator that sums records up by their source. It is `once` itself: no collector of pmacct or nfdump sums up and exports."""
from lab.collectors import Collector
from lab.exporters import Meter
from lab.mediation import send_aggregates
from lab.scenario import BILLING, Scenario
from lab.verdicts import CERTIFICATE, Expected

SCENARIO = Scenario(
    "m1-aggregate", "a mediator sums up by source: what `once run --links` exports is sent to nfacctd and nfcapd",
    Expected(CERTIFICATE), meters=(Meter("edge", ("up0",), ("172.31.0.1:4741",)),),
    collectors=(Collector("mediator", 4741, forwards=("billing",), aggregates=("sourceIPv4Address",)), BILLING),
    after_meters=send_aggregates)
