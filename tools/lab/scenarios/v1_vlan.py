"""The interface of a VLAN is metered."""
from lab.exporters import Meter
from lab.networks import vlan
from lab.scenario import Scenario
from lab.verdicts import CERTIFICATE, Expected
from lab.vlans import DECLARED, SENT

SCENARIO = Scenario(
    "v1-vlan", "customer 3 sends in a VLAN, whose interface at edge is metered, as that of customer 2 is", Expected(CERTIFICATE),
    meters=(Meter("edge", ("cust3.100", "cust2")),), sent=SENT, declared=DECLARED, network=vlan, changes_network=True)
