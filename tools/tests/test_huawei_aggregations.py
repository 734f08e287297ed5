"""Aggregations of NetStream on VRP: they send records of other keys, to hosts of their own."""
from __future__ import annotations

import pytest

from expected import SAMPLES, finding, read_text, shape
from once_tools.importing import Imported
from once_tools.model import Grade, Topic
from projects import COLLECTOR, REPORT, made
from pathlib import Path

PLAIN, AGGREGATED = ((SAMPLES / "huawei-vrp" / name).read_text() for name in ("ne-1.cfg", "ne-2.cfg"))
DEVICE = '[[devices]]\nname = "r"\nkind = "huawei"\nconfig = "r.cfg"\n'
TRAFFIC = '[[traffic]]\nname = "up"\nfrom = ["r:GigabitEthernet0/1/0"]\nto = ["r:GigabitEthernet0/1/1"]\n'


def imported(folder: Path, text: str) -> Imported:
    return made(folder, REPORT + DEVICE + COLLECTOR + TRAFFIC, r_cfg=text)


def test_an_aggregation_that_is_enabled_is_not_carried_over() -> None:
    device = read_text("huawei", AGGREGATED)
    one = finding(device, "'ip netstream aggregation prefix'")
    assert (one.grade, one.topic, one.exporters) == (Grade.NOT_CARRIED_OVER, Topic.MASK, ("ip netstream aggregation prefix",))
    assert finding(device, "'ip netstream aggregation as'").grade is Grade.NOTE
    assert shape(device)["points"] == shape(read_text("huawei", PLAIN))["points"]
    assert shape(device)["exporters"]["ip netstream aggregation prefix"] == (
        "parallel", [("192.0.2.20 port 2055", "192.0.2.20", 2055)])


def test_an_aggregation_for_another_host_does_not_bear_on_the_report(tmp_path: Path) -> None:
    (one,) = [each for each in imported(tmp_path, AGGREGATED).report.findings if "records of other keys" in each.says]
    assert one.grade is Grade.NOTE


def test_an_aggregation_for_the_collector_bears_on_the_report(tmp_path: Path) -> None:
    (one,) = [each for each in imported(tmp_path, AGGREGATED.replace("192.0.2.20 2055", "192.0.2.10 4739")).report.findings
              if "records of other keys" in each.says]
    assert one.grade is Grade.NOT_CARRIED_OVER


def test_an_aggregation_without_a_host_is_reported(tmp_path: Path) -> None:
    text = AGGREGATED.replace(" ip netstream export host 192.0.2.20 2055\n", "")
    assert finding(read_text("huawei", text), "where to is not known").grade is Grade.NOT_CARRIED_OVER


@pytest.mark.parametrize("line", [" frobnicate", " ip netstream frobnicate", " ip netstream export host 192.0.2.20 99999"])
def test_unknown_statements_of_an_aggregation(line: str) -> None:
    device = read_text("huawei", AGGREGATED.replace(" enable\n", f" enable\n{line}\n", 1))
    assert [one.grade for one in device.findings if one.place.text == line.strip()] == [Grade.NOT_CARRIED_OVER]


@pytest.mark.parametrize("line", ["ip netstream record R\n match ipv4 source-address\n collect counter bytes",
                                  "interface GigabitEthernet0/1/0\n port ip netstream record R"])
def test_records_of_flexible_netstream_are_reported(line: str) -> None:
    device = read_text("huawei", PLAIN.replace("return\n", line + "\nreturn\n"))
    last = line.split("\n")[-1].strip()
    assert [one.grade for one in device.findings if one.place.text == last] == [Grade.NOT_CARRIED_OVER]
