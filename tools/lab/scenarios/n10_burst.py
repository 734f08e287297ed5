"""A burst of messages overflows the collector's socket. Packets are sent faster than elsewhere, since the switch exports as fast."""
from lab.checks import all_of, exactly_in, has_lost
from lab.collectors import Collector
from lab.scenario import SWITCH_WITH_CACHE, Scenario, Sent
from lab.verdicts import REFUTATION, Expected, Verdict

SCENARIO = Scenario(
    "n10-burst", "as d1, and nfacctd as it comes: 208 KiB of receive buffer, each record by itself to the plugin",
    Expected(REFUTATION, (Verdict.NOT_MEASURED,), "each message reaches the collector",
             all_of(has_lost("found the buffer full"), exactly_in("once collect")), ("found the buffer full", "RcvbufErrors")),
    switch=SWITCH_WITH_CACHE, gaps=1, sent=Sent(gap=0.0002), is_random=True,
    collectors=(Collector("billing", receive_buffer=212_992, is_as_it_comes=True),))
