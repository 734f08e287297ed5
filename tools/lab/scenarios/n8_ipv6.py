"""Link-local packets of IPv6 come to a meter."""
from lab.exporters import Meter
from lab.networks import link_local
from lab.scenario import ROUTING, Scenario
from lab.verdicts import CERTIFICATE, Expected

SCENARIO = Scenario(
    "n8-ipv6", "the routers have IPv6 on their link, and send link-local packets", Expected(CERTIFICATE),
    meters=(Meter("edge", ("up0",)),), network=link_local, changes_network=True, other_keys=(*ROUTING, "fe80:", "0:0:0:0:0:0:0:0"))
