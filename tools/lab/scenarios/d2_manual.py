"""The manual of Open vSwitch has the meaning of its switches the wrong way round."""
from lab.checks import multiple
from lab.scenario import SWITCH_WITH_CACHE, Declared, Scenario
from lab.verdicts import CERTIFICATE, Expected, Verdict

SCENARIO = Scenario(
    "d2-manual", "enable-output-sampling=false, and the documents follow the manual", Expected(
        CERTIFICATE, (Verdict.DIFFERED,), "the switch works as its manual says: version 3.1.0 does the opposite", multiple(2)),
    switch=(*SWITCH_WITH_CACHE, "other_config:enable-output-sampling=false"), gaps=1,
    declared=Declared(switch_options='{ switches = "manual" }'))
