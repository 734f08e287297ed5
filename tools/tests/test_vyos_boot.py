"""VyOS' config.boot: the same statements as `set` lines, in braces."""
from __future__ import annotations

import re

import pytest

from expected import SAMPLES, finding, lines, read_text, shape
from once_tools.load import scores
from once_tools.model import Grade, Unusable
from once_tools.report import line_of
from test_mutations import FILES

BOOT = (SAMPLES / "vyos" / "gw-1.boot").read_text()


def test_both_forms_of_a_configuration_give_equal_devices() -> None:
    boot, commands = read_text("vyos", BOOT), read_text("vyos", (SAMPLES / FILES["vyos"]).read_text())
    assert shape(boot) == shape(commands) and boot.hostname == commands.hostname == "gw-1"
    of = [[(one.name, one.addresses, one.description, one.parent) for one in device.interfaces if one.name != "lo"]
          for device in (boot, commands)]
    assert of[0] == of[1]
    said = [[(one.grade, re.sub(r"line [0-9]+", "", one.says)) for one in device.findings] for device in (boot, commands)]
    assert said[0] == said[1]


def test_lines_are_cited_as_they_stand() -> None:
    device = read_text("vyos", BOOT)
    assert device.points[0].interface_places[1].text == "interface eth1"
    assert BOOT.split("\n")[device.points[0].interface_places[1].line - 1].strip() == "interface eth1"


def test_the_kind_is_recognized() -> None:
    assert scores(BOOT)[0] == (99, "vyos") and scores(BOOT)[1][0] < 70


@pytest.mark.parametrize("before, after, words, grade", [
    ("        disable-imt\n", "        disable-imt\n        enable-egress\n", "counts twice", Grade.WARNING),
    ("            version 10\n", "            version 10\n            sampling-rate 100\n", "out of 100", Grade.NOT_CARRIED_OVER),
    ("            version 10\n", "            frobnicate 10\n", "netflow frobnicate", Grade.NOT_CARRIED_OVER),
    ("        disable-imt\n", "        packet-length 64\n", "captured in part", Grade.NOT_CARRIED_OVER),
    ("        disable-imt\n", "        buffer-size 10\n", "buffer of 10 MB", Grade.NOTE),
    ('description "customer I"\n', 'description "customer I"\n        disable\n', "eth0 is disabled", Grade.NOTE)])
def test_statements_in_braces_are_reported(before: str, after: str, words: str, grade: Grade) -> None:
    assert before in BOOT
    assert finding(read_text("vyos", BOOT.replace(before, after, 1)), words).grade is grade


def test_names_with_spaces_and_braces_in_quotes() -> None:
    text = BOOT.replace('"customer I"', '"a { b } // c"')
    device = read_text("vyos", text)
    assert next(one for one in device.interfaces if one.name == "eth0").description == "a { b } // c"
    assert shape(device) == shape(read_text("vyos", BOOT))


def test_carriage_returns_and_a_section_that_is_cut_off() -> None:
    assert shape(read_text("vyos", BOOT.replace("\n", "\r\n"))) == shape(read_text("vyos", BOOT))
    assert lines(read_text("vyos", BOOT.partition("            server 192.0.2.20")[0]))


def test_braces_of_another_kind_are_refused() -> None:
    with pytest.raises(Unusable, match="no line that begins"):
        read_text("vyos", "firewall {\n    a b;\n}\n")


def test_a_set_line_that_is_deactivated_is_not_in_force() -> None:
    text = (SAMPLES / FILES["vyos"]).read_text() + "deactivate system flow-accounting interface 'eth1'\n"
    device = read_text("vyos", text)
    assert device.points[0].interfaces == ["eth0"]
    assert any("deactivated" in line_of(one) for one in device.findings)
