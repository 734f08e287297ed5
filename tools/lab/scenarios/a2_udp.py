"""A filter keeps the routers' own packets out."""
from lab.exporters import Meter
from lab.scenario import Declared, Scenario
from lab.verdicts import CERTIFICATE, Expected

SCENARIO = Scenario(
    "a2-udp", "the same with pcap_filter udp; the routers' OSPF is declared as exempt", Expected(CERTIFICATE),
    meters=(Meter("edge", ("up0",), filter="udp"),), declared=Declared(routing=True, protocol=17))
