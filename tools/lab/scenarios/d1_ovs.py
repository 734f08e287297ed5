"""Open vSwitch samples where packets come in and where they leave."""
from lab.checks import multiple
from lab.scenario import SWITCH_WITH_CACHE, Scenario
from lab.verdicts import REFUTATION, Expected

SCENARIO = Scenario(
    "d1-ovs", "Open vSwitch as it comes: input and output are sampled", Expected(REFUTATION, check=multiple(2)),
    switch=SWITCH_WITH_CACHE, gaps=1, is_core=True)
