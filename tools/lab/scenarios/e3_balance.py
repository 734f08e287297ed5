"""A mediator balances messages over two collectors, one of which is billed."""
from lab.checks import all_of, at_most_due, packets_between
from lab.collectors import Collector
from lab.exporters import BILLING as TO_BILLING
from lab.exporters import Meter
from lab.scenario import BILLING, ROUTING, Scenario
from lab.verdicts import REFUTATION, Expected

# Which message goes where is left open by the documents. The gaps are those of the messages that the other collector has.
SCENARIO = Scenario(
    "e3-balance", "tee balances over two collectors, one of which is billed",
    Expected(REFUTATION, check=all_of(at_most_due(), packets_between(1, 1249))),
    meters=(Meter("edge", ("up0",), ("172.31.0.1:4741",)),),
    collectors=(Collector("tee", 4741, receivers=(TO_BILLING, "172.31.0.1:4740"), balances=True), BILLING,
                Collector("other", 4740)),
    other_keys=ROUTING, predicts=False, gaps=1000, is_random=True)
