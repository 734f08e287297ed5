"""Two meters share the customers by filters: two pmacctd whose filters share the sources; replies exempt."""
from lab.exporters import CUSTOMER_1, CUSTOMER_2, Meter
from lab.scenario import Declared, Scenario
from lab.verdicts import CERTIFICATE, Expected

SCENARIO = Scenario(
    "c1-share", "two pmacctd whose filters share the sources; replies exempt", Expected(CERTIFICATE),
    meters=(Meter("edge", ("up0",), filter=CUSTOMER_1), Meter("core", ("srv0",), filter=CUSTOMER_2, domain=2)),
    declared=Declared(exempts_servers=True), is_core=True)
