"""Each packet is metered where it comes in."""
from lab.exporters import Meter
from lab.scenario import Scenario
from lab.verdicts import CERTIFICATE, Expected

SCENARIO = Scenario(
    "b2-ingress", "pmacctd at cust1, cust2 and srv0, pcap_direction in", Expected(CERTIFICATE),
    meters=(Meter("edge", ("cust1", "cust2"), direction="in"), Meter("core", ("srv0",), direction="in", domain=2)))
