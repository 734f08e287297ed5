"""A switch that is set to true turns sampling off."""
from lab.scenario import SWITCH_WITH_CACHE, Scenario
from lab.verdicts import CERTIFICATE, Expected

SCENARIO = Scenario(
    "d4-input", "enable-output-sampling=true turns it off: input alone is sampled", Expected(CERTIFICATE),
    switch=(*SWITCH_WITH_CACHE, "other_config:enable-output-sampling=true"), gaps=1, is_core=True)
