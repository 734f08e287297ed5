"""Packets die before the meter, and the documents do not say so."""
from lab.checks import without
from lab.exporters import Meter
from lab.plan import short_lived
from lab.scenario import Scenario, Sent
from lab.verdicts import CERTIFICATE, Expected, Verdict

SCENARIO = Scenario(
    "n6-ttl", "one packet in ten has a TTL of 1 or 2 and dies on the way",
    Expected(CERTIFICATE, (Verdict.DIFFERED,), "each packet makes all crossings of its path",
             without(lambda one: one.ttl <= 2, short_lived(1000))),
    meters=(Meter("core", ("srv0",)),), sent=Sent(short_lived))
