"""Two meters share the customers by filters: the second filter holds the sources of the first too; replies exempt."""
from lab.checks import exactly
from lab.exporters import CUSTOMER_1, Meter
from lab.scenario import Declared, Scenario
from lab.totals import Totals, joined
from lab.verdicts import REFUTATION, Expected, Measured


def doubled(measured: Measured) -> Totals:
    """Returns the sums with the packets of customer 1 twice, since both meters see them."""
    return joined([measured.due, {key: value for key, value in measured.due.items() if key.startswith("10.1.")}])


SCENARIO = Scenario(
    "c2-overlap", "the second filter holds the sources of the first too; replies exempt",
    Expected(REFUTATION, check=exactly(doubled, "the sums with customer 1 twice")),
    meters=(Meter("edge", ("up0",), filter=CUSTOMER_1), Meter("core", ("srv0",), filter="src net 10.0.0.0/14", domain=2)),
    declared=Declared(exempts_servers=True), is_core=True)
