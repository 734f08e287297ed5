"""The meter ends before libpcap has passed on all packets."""
from lab.checks import at_most_due
from lab.exporters import Meter
from lab.scenario import ROUTING, Scenario
from lab.verdicts import CERTIFICATE, Expected, Verdict

# How much is missing depends on when libpcap passes packets on; it may be nothing.
SCENARIO = Scenario(
    "n11-early", "the meter is ended 50 ms after the last packet",
    Expected(CERTIFICATE, (Verdict.DIFFERED, Verdict.AGREED), "a meter ends some seconds after the last packet", at_most_due()),
    meters=(Meter("edge", ("up0",)),), settle=0.05, ends_early=True, other_keys=ROUTING, is_random=True)
