"""softflowd, whose counters have 4 octets."""
from lab.checks import all_of, exactly_in, is_refused
from lab.exporters import Meter
from lab.scenario import ROUTING, Declared, Scenario
from lab.verdicts import CERTIFICATE, Expected, Verdict

SCENARIO = Scenario(
    "n3-softflowd", "softflowd instead of pmacctd",
    Expected(CERTIFICATE, (Verdict.DIFFERED,), "counters have 8 octets: `once collect` refuses those of 4",
             all_of(is_refused("once collect", "refused 618"), exactly_in("nfacctd"), exactly_in("nfcapd"))),
    meters=(Meter("edge", ("up0",), program="softflowd"),), declared=Declared(accept=("counters",)), other_keys=ROUTING)
