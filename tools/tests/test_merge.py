"""Joining devices and collectors: what `once` answers about small projects, and what is reported."""
from __future__ import annotations

from pathlib import Path

import pytest

from cases import audited
from once_tools.importing import Options
from once_tools.model import Grade
from projects import BOTH_WAYS, COLLECTOR, DEVICE, RECORD, REPORT, TRAFFIC, made

IN = RECORD + "interface GigabitEthernet0/0\n ip flow monitor M input\ninterface GigabitEthernet0/1\n ip flow monitor M input\n"
PROJECT = REPORT + DEVICE + COLLECTOR + TRAFFIC


def answer(once: str, folder: Path, project: str, text: str = IN) -> str:
    found = made(folder, project, r_cfg=text)
    assert found.pairs, found.report.text()
    return audited(once, found.pairs[0], folder).split(" ")[0]


def lines(folder: Path, project: str, text: str = IN) -> list[str]:
    return made(folder, project, r_cfg=text).report.lines()


def test_input_everywhere(once: str, tmp_path: Path) -> None:
    assert answer(once, tmp_path, PROJECT) == "once-certificate"


def test_both_directions_count_twice(once: str, tmp_path: Path) -> None:
    assert answer(once, tmp_path, PROJECT, BOTH_WAYS) == "once-refutation"


def test_a_collector_that_drops_egress_counts_once(once: str, tmp_path: Path) -> None:
    project = PROJECT.replace(COLLECTOR, COLLECTOR + 'directions = ["ingress"]\n')
    assert answer(once, tmp_path, project, BOTH_WAYS) == "once-certificate"


@pytest.mark.parametrize("interface, expected", [
    ("r:Gi0/0", "once-certificate"), ("r:Gi0/1", "once-certificate"), ("r:Gi0/*", "once-refutation"), ("r:Gi0/9", "once-refutation")])
def test_a_collector_that_counts_certain_interfaces(once: str, tmp_path: Path, interface: str, expected: str) -> None:
    text = IN.replace("interface GigabitEthernet0/1\n ip flow monitor M input", "interface GigabitEthernet0/1\n ip flow monitor M "
                      "output")
    project = PROJECT.replace(COLLECTOR, COLLECTOR + f'interfaces = ["{interface}"]\n')
    assert answer(once, tmp_path, project, text) == expected


def test_choosing_without_the_key_is_not_carried_over(tmp_path: Path) -> None:
    project = PROJECT.replace(COLLECTOR, COLLECTOR + 'directions = ["ingress"]\n')
    found = made(tmp_path, project, r_cfg=BOTH_WAYS.replace(" match flow direction\n", ""))
    assert found.report.status == 1


def test_one_endpoint_of_two_collectors_is_wrong(tmp_path: Path) -> None:
    found = lines(tmp_path, PROJECT + COLLECTOR.replace("billing", "other"))
    assert any(line.startswith("wrong r.cfg:9: 'destination 192.0.2.10': 192.0.2.10:4739 is listened at by billing "
                               "(project.toml:7) and other (project.toml:15)") for line in found)


@pytest.mark.parametrize("forwards, expected", [('forwards = ["billing"]\n', "once-certificate"), ("", "once-refutation")])
def test_an_address_of_two_machines_chooses_one(once: str, tmp_path: Path, forwards: str, expected: str) -> None:
    second = '[[collectors]]\nname = "second"\nlisten = ["192.0.2.11:4739"]\n' + forwards
    project = REPORT + DEVICE + COLLECTOR + second + TRAFFIC + '[addresses]\n"192.0.2.100:4739" = ["192.0.2.10:4739", ' \
        '"192.0.2.11:4739"]\n'
    text = IN.replace("destination 192.0.2.10", "destination 192.0.2.100")
    assert answer(once, tmp_path, project, text) == expected


def test_a_mirror_counts_twice(once: str, tmp_path: Path) -> None:
    text = IN.replace(" exporter E\n", " exporter E\n exporter F\n") + "flow exporter F\n destination 192.0.2.11\n" \
        " transport udp 4739\n export-protocol ipfix\n"
    project = PROJECT + '[[collectors]]\nname = "copy"\nlisten = ["192.0.2.11:4739"]\nforwards = ["billing"]\n'
    assert answer(once, tmp_path, project, text) == "once-refutation"


def test_translated_address(once: str, tmp_path: Path) -> None:
    project = PROJECT + '[addresses]\n"203.0.113.5" = "192.0.2.10"\n'
    assert answer(once, tmp_path, project, IN.replace("destination 192.0.2.10", "destination 203.0.113.5")) == "once-certificate"


def test_host_name_needs_an_address(once: str, tmp_path: Path) -> None:
    text = IN.replace("destination 192.0.2.10", "destination flows.example.net")
    assert answer(once, tmp_path, PROJECT, text) == "once-refutation"
    assert answer(once, tmp_path, PROJECT + '[addresses]\n"flows.example.net" = "192.0.2.10"\n', text) == "once-certificate"


@pytest.mark.parametrize("accepted, expected", [("198.51.100.1", "once-certificate"), ("198.51.100.2", "once-refutation"),
                                                ("198.51.100.0/24", "once-certificate"), ("198.51.99.0/24", "once-refutation")])
def test_sources_that_a_collector_accepts(once: str, tmp_path: Path, accepted: str, expected: str) -> None:
    project = PROJECT.replace(COLLECTOR, COLLECTOR + f'accept_from = ["{accepted}"]\n')
    assert answer(once, tmp_path, project) == expected


def test_three_hundred_interfaces_make_two_points(tmp_path: Path) -> None:
    text = RECORD + "".join(f"interface GigabitEthernet0/{one}\n ip flow monitor M input\n" for one in range(300))
    found = made(tmp_path, PROJECT, r_cfg=text)
    assert [len(one.interfaces) for one in found.devices[0].points] == [256, 44]


def test_sampler_of_another_report_is_a_note(tmp_path: Path) -> None:
    text = IN + "sampler S\n mode random 1 out-of 100\nflow exporter N\n destination 192.0.2.20\nflow monitor NOC\n record R\n" \
        " exporter N\ninterface GigabitEthernet0/2\n ip flow monitor NOC sampler S input\n"
    found = made(tmp_path, PROJECT, r_cfg=text)
    assert found.report.status == 0
    assert [one.name for one in found.devices[0].points] == ["M input"]


def test_different_rates_are_a_premise(tmp_path: Path) -> None:
    samplers = "sampler S\n mode random 1 out-of 100\nsampler T\n mode deterministic 1 out-of 10\n"
    text = samplers + IN.replace("ip flow monitor M input", "ip flow monitor M sampler S input", 1)
    assert any("1 in 100 at r, 1 in 1 at r" in line for line in lines(tmp_path, PROJECT, text))
    text = text.replace("ip flow monitor M input", "ip flow monitor M sampler S input")
    assert not any("differ" in line for line in lines(tmp_path, PROJECT, text))
    text = text.replace("sampler S input", "sampler T input", 1)
    assert any("1 in 10 at r, 1 in 100 at r" in line for line in lines(tmp_path, PROJECT, text))


def test_accepted_deviations_keep_the_status(tmp_path: Path) -> None:
    text = IN.replace("ip flow monitor M input", "ip flow monitor M sampler S input") + "sampler S\n mode random 1 out-of 9\n"
    assert made(tmp_path, PROJECT, r_cfg=text).report.status == 1
    found = made(tmp_path, PROJECT + '[accept]\nsampler = ["r"]\n', r_cfg=text)
    assert found.report.status == 0
    assert any(line.startswith("accepted r.cfg:") for line in found.report.lines())
    wrong = made(tmp_path, PROJECT + '[accept]\nsampler = ["rr"]\n', r_cfg=text)
    assert wrong.report.status == 2


@pytest.mark.parametrize("key, folders", [("source", ["ipv4"]), ("sourceIPv4Address", [""]), ("destination/24/48", ["ipv4"])])
def test_keys_of_both_versions_make_pairs(tmp_path: Path, key: str, folders: list[str]) -> None:
    found = made(tmp_path, PROJECT.replace("sourceIPv4Address", key), r_cfg=IN)
    assert [one.folder for one in found.pairs] == folders


@pytest.mark.parametrize("key", ["sourceIPv4Adress", "sourceIPv4Prefix", "source/99", "sourceIPv4Prefix/0"])
def test_wrong_keys(tmp_path: Path, key: str) -> None:
    found = made(tmp_path, PROJECT.replace("sourceIPv4Address", key), r_cfg=IN)
    assert found.pairs == [] and found.report.findings[0].grade is Grade.WRONG


def test_others_hold_what_no_class_above_holds(once: str, tmp_path: Path) -> None:
    others = '[[traffic]]\nname = "others"\nversion = 4\nothers = true\nfrom = ["r:Gi0/0"]\nto = ["r:Gi0/1"]\n'
    found = made(tmp_path, PROJECT + others, r_cfg=IN)
    regions = [one.region for one in found.pairs[0].classes]
    assert {"ipVersion": "4", "sourceIPv4Address": "0.0.0.0-9.255.255.255"} in regions
    assert {"ipVersion": "4", "sourceIPv4Address": "11.0.0.0-255.255.255.255"} in regions
    assert len(regions) == 3
    assert audited(once, found.pairs[0], tmp_path).startswith("once-certificate")


def test_faithful_documents_are_refused(once: str, tmp_path: Path) -> None:
    text = IN.replace("collect counter bytes long", "collect counter bytes")
    found = made(tmp_path, PROJECT, Options(faithful=True), r_cfg=text)
    assert audited(once, found.pairs[0], tmp_path).startswith("refused 110 ")


def test_a_device_that_cannot_be_read_is_reported(tmp_path: Path) -> None:
    found = made(tmp_path, PROJECT.replace("r.cfg", "gone.cfg"), r_cfg=IN)
    assert found.report.lines() == ["wrong project.toml:4: '[[devices]]': file gone.cfg cannot be read: No such file or "
                                    "directory; name a file that can be read"]


V6 = IN.replace("match ipv4", "match ipv6").replace("ip flow monitor", "ipv6 flow monitor")
V6_PROJECT = PROJECT.replace("sourceIPv4Address", "sourceIPv6Address").replace("10.0.0.0/8", "2001:db8::/32")


@pytest.mark.parametrize("protocol, expected", [("ipfix", "once-certificate"), ("netflow-v9", "once-certificate"),
                                                ("netflow-v5", "once-refutation")])
def test_records_of_ipv6_are_not_sent_by_netflow_5(once: str, tmp_path: Path, protocol: str, expected: str) -> None:
    """NetFlow version 5 has fixed records of IPv4."""
    assert answer(once, tmp_path, V6_PROJECT, V6.replace("export-protocol ipfix", f"export-protocol {protocol}")) == expected


def test_a_destination_in_a_vrf_is_a_premise(tmp_path: Path) -> None:
    found = lines(tmp_path, PROJECT, IN.replace("destination 192.0.2.10", "destination 192.0.2.10 vrf OTHER"))
    assert any(one.startswith("premise r.cfg:9: 'destination 192.0.2.10 vrf OTHER': vrf OTHER is taken to lead to") for one in found)


@pytest.mark.parametrize("key, grades", [
    ('"sourceIPv4Address"', []), ('"sourceIPv4Prefix/24"', []), ('["source"]', []),
    ('["source", "destination"]', ["not carried over"]), ('"destinationIPv4Address"', ["not carried over"])])
def test_a_key_that_the_collector_does_not_store_by(tmp_path: Path, key: str, grades: list[str]) -> None:
    collector = '[[collectors]]\nname = "billing"\nkind = "nfacctd"\nconfig = "c.conf"\n'
    found = made(tmp_path, PROJECT.replace(COLLECTOR, collector).replace('"sourceIPv4Address"', key), r_cfg=IN,
                 c_conf="plugins: print[bill]\nnfacctd_ip: 192.0.2.10\nnfacctd_port: 4739\naggregate[bill]: src_host\n")
    assert [one.grade.value for one in found.report.findings if "has no totals by" in one.says] == grades


STORES = ("nfacctd_port: 4739\nnfacctd_ip: 192.0.2.10\nplugins: print[all], print[part]\naggregate[all]: src_host\n"
          "aggregate[part]: src_host, dst_host\naggregate_filter[part]: src net 10.0.0.0/8\n")
STORING = '[[collectors]]\nname = "billing"\nkind = "nfacctd"\nconfig = "nf.conf"\n'


@pytest.mark.parametrize("chosen,wanted", [('plugin = "all"\n', "udp 4739"), ('plugin = "part"\n', "part"), ("", ""),
                                           ('process = "part"\n', "part")])
def test_a_report_of_a_plugin_with_a_filter_is_of_its_own_process(tmp_path: Path, chosen: str, wanted: str) -> None:
    found = made(tmp_path, REPORT + chosen + DEVICE + STORING + TRAFFIC, r_cfg=BOTH_WAYS, nf_conf=STORES)
    assert found.network and found.network.report[1] == wanted
    assert any(one.grade is Grade.WRONG and 'plugin = ".."' in one.todo for one in found.report.findings) == (not wanted)


def test_what_a_filter_does_not_pass_is_not_counted(tmp_path: Path, once: str) -> None:
    """The traffic of 10.0.0.0/8 passes the filter, and that of 11.0.0.0/8 does not."""
    collector = STORES.replace("print[all], ", "").replace("aggregate[all]: src_host\n", "")
    for octet, wanted in (("10", "once-certificate"), ("11", "once-refutation")):
        found = made(tmp_path, REPORT + DEVICE + STORING + TRAFFIC.replace('"10.', f'"{octet}.'), r_cfg=IN.replace(
            " match flow direction\n", ""), nf_conf=collector)
        assert found.pairs, found.report.text()
        assert audited(once, found.pairs[0], tmp_path).split(" ")[0] == wanted


def test_destination_of_a_sampled_monitor_that_nothing_listens_at_is_a_note(tmp_path: Path) -> None:
    """The monitor is left out of the document, and the line of its destination is in the report all the same."""
    sampled = """flow exporter F
 destination 192.0.2.20
 transport udp 9999
flow monitor N
 record R
 exporter F
sampler S
 mode random 1 out-of 100
interface GigabitEthernet0/2
 ip flow monitor N sampler S input
"""
    found = made(tmp_path, PROJECT, r_cfg=IN + sampled)
    says = [(one.grade, one.says) for one in found.report.findings if one.place.text == "destination 192.0.2.20"]
    assert [grade for grade, _ in says] == [Grade.NOTE]
    assert "port 9999" in says[0][1] and "192.0.2.10:4739 (billing)" in says[0][1]
    assert found.report.status == 0
