"""Open vSwitch samples where packets leave alone."""
from lab.scenario import SWITCH_WITH_CACHE, Scenario
from lab.verdicts import CERTIFICATE, Expected

SCENARIO = Scenario(
    "d5-output", "enable-input-sampling=true: output alone is sampled", Expected(CERTIFICATE),
    switch=(*SWITCH_WITH_CACHE, "other_config:enable-input-sampling=true"), gaps=1)
