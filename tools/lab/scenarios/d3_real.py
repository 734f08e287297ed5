"""A switch that is set to false leaves sampling on."""
from lab.checks import multiple
from lab.scenario import SWITCH_WITH_CACHE, Scenario
from lab.verdicts import REFUTATION, Expected

SCENARIO = Scenario(
    "d3-real", "enable-output-sampling=false, and the documents follow what version 3.1.0 does",
    Expected(REFUTATION, check=multiple(2)),
    switch=(*SWITCH_WITH_CACHE, "other_config:enable-output-sampling=false"), gaps=1)
