"""One pmacctd at the routers' link."""
from lab.exporters import Meter
from lab.scenario import ROUTING, Scenario
from lab.verdicts import CERTIFICATE, Expected

SCENARIO = Scenario(
    "a1-one", "one pmacctd at edge up0, both directions", Expected(CERTIFICATE),
    meters=(Meter("edge", ("up0",)),), other_keys=ROUTING, is_core=True)
