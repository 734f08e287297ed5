"""Statements in braces that paths cannot follow are reported as their `set` lines are: each kind at its first line."""
from __future__ import annotations

from pathlib import Path

import pytest

from expected import SAMPLES
from once_tools.model import Device, Grade, Topic
from once_tools.paths.premises import premises
from once_tools.source import Source
from projects import COLLECTOR, REPORT, made

JUNOS = """security {
    nat {
        destination {
            pool web {
                address 10.0.0.5/32;
            }
        }
    }
}
interfaces {
    ge-0/0/0 {
        mtu 9000;
    }
    gr-0/0/0 {
        unit 0;
    }
}
firewall {
    filter POLICY {
        term 1 {
            then {
                routing-instance other;
            }
        }
    }
}
protocols {
    mpls {
        interface ge-0/0/0.0;
    }
}
"""
VYOS = """interfaces {
    ethernet eth0 {
        mtu 9000
    }
    tunnel tun0 {
        encapsulation gre
    }
}
nat {
    source {
        rule 10 {
            outbound-interface eth1
        }
    }
}
policy {
    route PBR {
        rule 10 {
            set {
                table 10
            }
        }
    }
}
"""
LOST, PREMISE = Grade.NOT_CARRIED_OVER, Grade.PREMISE


def found(kind: str, text: str) -> list[tuple[int, Grade]]:
    """Returns the lines and grades of what a configuration says that paths cannot follow."""
    device = Device("r", kind, ["r.cfg"])
    return sorted(((one.place.line, one.grade) for one in premises(device, [Source("r.cfg", text)])), key=lambda one: one[0])


@pytest.mark.parametrize("kind, text, expected", [
    # Translation, the MTU, the tunnel, the filter that chooses a routing instance, and MPLS.
    ("junos", JUNOS, [(5, LOST), (12, PREMISE), (15, PREMISE), (22, LOST), (29, PREMISE)]),
    ("junos", JUNOS.replace("    nat {", "    inactive: nat {"), [(12, PREMISE), (15, PREMISE), (22, LOST), (29, PREMISE)]),
    # The MTU, the tunnel, translation, and policy routing.
    ("vyos", VYOS, [(3, PREMISE), (6, PREMISE), (12, LOST), (20, LOST)]),
    ("vyos", VYOS.replace("outbound-interface eth1", "outbound-interface eth1\n            disable"),
     [(3, PREMISE), (6, PREMISE), (21, LOST)])])
def test_statements_in_braces(kind: str, text: str, expected: list[tuple[int, Grade]]) -> None:
    assert found(kind, text) == expected


@pytest.mark.parametrize("lines, expected", [
    ("set security nat source rule-set A from zone trust\ndelete security nat\n", []),
    ("deactivate security nat\nset security nat source rule-set A from zone trust\nactivate security nat\n", [(2, LOST)])])
def test_lines_of_junos_that_are_deleted_or_activated_again(lines: str, expected: list[tuple[int, Grade]]) -> None:
    assert found("junos", lines) == expected


@pytest.mark.parametrize("file, metered", [("gw-1.set", "set system flow-accounting interface 'eth1'\n"),
                                           ("gw-1.boot", "        interface eth1\n")])
def test_a_translation_of_vyos_beyond_all_meters_is_a_note_alone(tmp_path: Path, file: str, metered: str) -> None:
    """Customers' packets are metered where they come in, at eth0, and have other addresses beyond eth1 alone."""
    text = (SAMPLES / "vyos" / file).read_text()
    assert text.count(metered) == 1
    project = REPORT + '[[devices]]\nname = "r"\nkind = "vyos"\nconfig = "r.cfg"\n' + COLLECTOR + \
        '[[traffic]]\nname = "up"\nfrom = ["r:eth0"]\nto = ["r:eth1"]\n'
    report = made(tmp_path, project, r_cfg=text.replace(metered, "")).report
    told = [one for one in report.findings if one.topic is Topic.NAT or "nat source" in one.says or "NAT" in one.says]
    assert [one.grade for one in told] == [Grade.NOTE], [one.says for one in told]
