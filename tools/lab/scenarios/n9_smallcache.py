"""A small cache, which records leave early."""
from lab.exporters import Meter
from lab.scenario import ROUTING, Scenario, Sent
from lab.verdicts import CERTIFICATE, Expected

SCENARIO = Scenario(
    "n9-smallcache", "nfprobe_maxflows 20, and slower sending: records leave early", Expected(CERTIFICATE),
    meters=(Meter("edge", ("up0",), settings=("nfprobe_maxflows: 20",)),), sent=Sent(gap=0.004), other_keys=ROUTING)
