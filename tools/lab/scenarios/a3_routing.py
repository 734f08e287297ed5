"""Without a filter the routers' own packets are counted, though they are declared as exempt."""
from lab.exporters import Meter
from lab.scenario import ROUTING, Declared, Scenario
from lab.verdicts import REFUTATION, Expected, Measured, Verdict


def counts_routing(measured: Measured) -> list[str]:
    """Demands that every program has the routers' keys, beside the totals of the customers that are due."""
    found = [f"{program} does not count the exempt packets of {key}" for program in measured.found for key in ROUTING
             if key not in measured.others.get(program, {})]
    return found + [f"{program} has other totals than those due under declared keys" for program, table in measured.found.items()
                    if table != measured.due]


SCENARIO = Scenario(
    "a3-routing", "no filter; the routers' OSPF is declared as exempt",
    Expected(REFUTATION, (Verdict.AGREED,), check=counts_routing),
    meters=(Meter("edge", ("up0",)),), declared=Declared(routing=True), other_keys=ROUTING, others_are_wrong=True)
