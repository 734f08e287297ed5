"""What the scenarios of the VLAN have in common."""
from __future__ import annotations

from lab.namespaces import Cable
from lab.plan import in_vlan
from lab.scenario import Declared, Sent

HOSTS = (("c3", "eth0.100"), ("c2", "eth0"), ("s1", "eth0"), ("s2", "eth0"))
SENT = Sent(in_vlan, interfaces=HOSTS, customers=("c3", "c2"))
DECLARED = Declared(cables=(Cable("c3", "eth0.100", "edge", "cust3.100"),))
