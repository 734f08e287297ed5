"""The interface of a VLAN and the port below it are metered: packets in the VLAN cross both."""
from lab.exporters import Meter
from lab.networks import vlan
from lab.scenario import Scenario
from lab.totals import of_keys, times
from lab.verdicts import REFUTATION, Expected, Measured
from lab.vlans import DECLARED, SENT


def doubles_vlan(measured: Measured) -> list[str]:
    """Demands that packets of customer 3 count twice, and those of customer 2 once."""
    found = []
    for prefix, factor in (("10.1.100.", 2), ("10.2.0.", 1)):
        keys = [key for key in measured.plain if key.startswith(prefix)]
        found += [f"{program} does not count packets from {prefix}* {factor} times" for program, table in measured.found.items()
                  if of_keys(table, keys) != times(of_keys(measured.plain, keys), factor)]
    return found


SCENARIO = Scenario(
    "v2-vlan-and-port", "the same, and the port of the VLAN is metered too", Expected(REFUTATION, check=doubles_vlan),
    meters=(Meter("edge", ("cust3", "cust3.100", "cust2")),), sent=SENT, declared=DECLARED, network=vlan, changes_network=True)
