"""The meter is killed before it exports."""
from lab.checks import all_of, at_most_due, has_lost
from lab.exporters import Meter
from lab.scenario import ROUTING, Scenario
from lab.verdicts import CERTIFICATE, Expected, Verdict

SCENARIO = Scenario(
    "n7-kill", "the meter is killed before it exports",
    Expected(CERTIFICATE, (Verdict.NOT_MEASURED,), "caches are exported before a meter ends",
             all_of(has_lost("killed"), at_most_due()), ("killed",)),
    meters=(Meter("edge", ("up0",)),), kills_meters=True, other_keys=ROUTING, is_random=True)
