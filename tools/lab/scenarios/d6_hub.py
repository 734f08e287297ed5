"""A packet that is flooded is sampled at each port by which it leaves, also at the bridge's own."""
from lab.checks import multiple
from lab.networks import flooding
from lab.scenario import SWITCH_WITH_CACHE, Declared, Scenario
from lab.special_paths import flooded_paths
from lab.verdicts import REFUTATION, Expected

SCENARIO = Scenario(
    "d6-hub", "output alone, and the bridge floods each packet", Expected(REFUTATION, check=multiple(3)),
    switch=(*SWITCH_WITH_CACHE, "other_config:enable-input-sampling=true"), gaps=1,
    network=flooding, changes_network=True, declared=Declared(paths=flooded_paths))
