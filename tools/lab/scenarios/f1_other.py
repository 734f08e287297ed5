"""A meter that has its part of the packets sends to a collector that nobody bills by."""
from lab.checks import exactly
from lab.collectors import Collector
from lab.exporters import CUSTOMER_1, CUSTOMER_2, Meter
from lab.scenario import BILLING, Declared, Scenario
from lab.totals import Totals
from lab.verdicts import REFUTATION, Expected, Measured


def of_customer_1(measured: Measured) -> Totals:
    """Returns the sums of customer 1."""
    return {key: value for key, value in measured.due.items() if key.startswith("10.1.")}


SCENARIO = Scenario(
    "f1-other", "two pmacctd share by filters, the second sends to a collector that is not billed",
    Expected(REFUTATION, check=exactly(of_customer_1, "the sums of customer 1")),
    meters=(Meter("edge", ("up0",), filter=CUSTOMER_1),
            Meter("core", ("srv0",), ("172.31.0.1:4740",), filter=CUSTOMER_2, domain=2)),
    collectors=(BILLING, Collector("other", 4740)), declared=Declared(exempts_servers=True), is_core=True)
