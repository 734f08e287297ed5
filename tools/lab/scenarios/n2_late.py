"""The collector starts after the first exports."""
from lab.checks import all_of, at_most_due, exactly_in, has_lost
from lab.exporters import Meter
from lab.scenario import ROUTING, Scenario, Sent
from lab.verdicts import CERTIFICATE, Expected, Verdict

SCENARIO = Scenario(
    "n2-late", "the collector starts after the first exports",
    Expected(CERTIFICATE, (Verdict.NOT_MEASURED,), "each message reaches the collector, after its templates",
             all_of(has_lost("ICMP error"), at_most_due("nfacctd"), exactly_in("once collect")), ("ICMP error",)),
    meters=(Meter("edge", ("up0",)),), sent=Sent(gap=0.018), starts_late=6.0, other_keys=ROUTING, is_random=True)
