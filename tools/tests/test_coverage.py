"""What a report says about interfaces that no declared traffic crosses, and about the key that a collector stores by."""
from __future__ import annotations

from pathlib import Path

from once_tools.model import Grade
from projects import COLLECTOR, DEVICE, RECORD, REPORT, TRAFFIC, made

IN = RECORD + "".join(f"interface GigabitEthernet0/{one}\n ip flow monitor M input\n" for one in (0, 1, 2))
NFACCTD = "nfacctd_ip: 192.0.2.10\nnfacctd_port: 4739\nplugins: print[a], print[b]\naggregate[a]: src_host\naggregate[b]: dst_host\n"
STORING = '[[collectors]]\nname = "billing"\nkind = "nfacctd"\nconfig = "nfacctd.conf"\n'


def test_metered_interfaces_without_traffic_are_named(tmp_path: Path) -> None:
    found = made(tmp_path, REPORT + DEVICE + COLLECTOR + TRAFFIC, r_cfg=IN)
    named = [one.place.line for one in found.report.findings if "no declared traffic" in one.says]
    assert named == [21, 23]  # what comes in at Gi0/1 and Gi0/2


def test_the_key_that_a_collector_stores_by(tmp_path: Path) -> None:
    plain = REPORT.replace('key = "sourceIPv4Address"\n', "")
    project = plain + 'plugin = "b"\n' + DEVICE + STORING + TRAFFIC
    found = made(tmp_path, project, r_cfg=IN, nfacctd_conf=NFACCTD)
    assert [one.key for one in found.pairs] == [(("destinationIPv4Address", None),)]
    found = made(tmp_path, plain + DEVICE + STORING + TRAFFIC, r_cfg=IN, nfacctd_conf=NFACCTD)
    wrong = [one for one in found.report.findings if one.grade is Grade.WRONG]
    assert [one.todo for one in wrong] == ['add plugin = "..": a stores by source; b stores by destination']
    found = made(tmp_path, plain + 'plugin = "c"\n' + DEVICE + STORING + TRAFFIC, r_cfg=IN, nfacctd_conf=NFACCTD)
    assert "'billing' has no plugin 'c' that stores" in found.report.text()


def test_metered_interfaces_without_traffic_of_their_version_are_named(tmp_path: Path) -> None:
    """Traffic of IPv4 crosses both interfaces, and nothing is declared of the IPv6 that is metered at one of them."""
    six = """flow record R6
 match ipv6 source address
 match ipv6 destination address
 collect counter bytes long
 collect counter packets long
flow monitor M6
 record R6
 exporter E
interface GigabitEthernet0/0
 ip flow monitor M input
 ipv6 flow monitor M6 input
interface GigabitEthernet0/1
"""
    found = made(tmp_path, REPORT + DEVICE + COLLECTOR + TRAFFIC, r_cfg=RECORD + six)
    named = [(one.grade, one.place.text) for one in found.report.findings if "no declared traffic" in one.says]
    assert named == [(Grade.NOTE, "ipv6 flow monitor M6 input")]
    assert "no declared traffic of IPv6 comes in there" in found.report.text()
