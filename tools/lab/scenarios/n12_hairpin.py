"""Packets cross the routers' link twice."""
from lab.checks import multiple
from lab.exporters import Meter
from lab.networks import policy_routing
from lab.plan import to_customers
from lab.scenario import ROUTING, Declared, Scenario, Sent
from lab.special_paths import hairpin_paths
from lab.verdicts import REFUTATION, Expected

SCENARIO = Scenario(
    "n12-hairpin", "customer 1 to customer 2 over core and back by policy routing: up0 sees each packet twice",
    Expected(REFUTATION, check=multiple(2)), meters=(Meter("edge", ("up0",)),),
    sent=Sent(to_customers, 500, customers_receive_at=(5000, 5009)), declared=Declared(paths=hairpin_paths),
    network=policy_routing, changes_network=True, other_keys=ROUTING)
