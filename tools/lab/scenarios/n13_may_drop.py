"""Packets die before the meter, and the documents say that they may."""
from lab.checks import without
from lab.exporters import Meter
from lab.plan import short_lived
from lab.scenario import Declared, Scenario, Sent
from lab.schedules import by_ttl
from lab.verdicts import REFUTATION, Expected

SCENARIO = Scenario(
    "n13-may-drop", "as n6, and once-import --may-drop declares packets that die on the way",
    Expected(REFUTATION, check=without(lambda one: one.ttl <= 2, short_lived(1000))),
    meters=(Meter("core", ("srv0",)),), sent=Sent(short_lived), declared=Declared(options=("--may-drop",)), schedule=by_ttl)
