"""A meter that samples."""
from lab.checks import all_of, at_most_due, packets_between
from lab.exporters import Meter
from lab.scenario import ROUTING, Scenario
from lab.verdicts import CERTIFICATE, Expected, Verdict

SCENARIO = Scenario(
    "n4-sampling", "pmacctd with sampling_rate 10",
    Expected(CERTIFICATE, (Verdict.DIFFERED,), "meters see each packet: this one samples, which once-import reports",
             all_of(at_most_due(), packets_between(60, 210))),
    meters=(Meter("edge", ("up0",), settings=("sampling_rate: 10",)),), other_keys=ROUTING, is_random=True)
