"""Two meters share the customers by filters: the second filter misses one of its five sources; replies exempt."""
from lab.checks import exactly
from lab.exporters import CUSTOMER_1, Meter
from lab.scenario import Declared, Scenario
from lab.totals import Totals
from lab.verdicts import REFUTATION, Expected, Measured


def without_one(measured: Measured) -> Totals:
    """Returns the sums without the address that no filter selects."""
    return {key: value for key, value in measured.due.items() if key != "10.2.0.11"}


SCENARIO = Scenario(
    "c3-gap", "the second filter misses one of its five sources; replies exempt",
    Expected(REFUTATION, check=exactly(without_one, "the sums without 10.2.0.11")),
    meters=(Meter("edge", ("up0",), filter=CUSTOMER_1), Meter("core", ("srv0",), filter="src net 10.2.0.12/30", domain=2)),
    declared=Declared(exempts_servers=True))
