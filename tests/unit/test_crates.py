"""The groups of crates.txt, and the table of tests."""
from crates import HEAD, line_of, in_order, listed, rows_of, wrong_groups

USES = {"fx_low": {"itoa"}, "fx_high": {"fx_low", "fx_middle", "clap"}, "fx_middle": {"fx_low"}}
GROUPS = {"values": "fx_low", "program": "fx_middle fx_high"}


def test_lines_name_what_is_nearest_first():
    order = in_order(USES)
    assert order == ["fx_low", "fx_middle", "fx_high"] and line_of("fx_high", USES, order) == "fx_high: fx_middle fx_low clap"


def test_groups_are_headings():
    assert listed(USES, GROUPS) == HEAD + "\n# values\nfx_low: itoa\n\n# program\nfx_middle: fx_low\nfx_high: fx_middle fx_low clap\n"


def test_right_groups_have_no_fault():
    assert list(wrong_groups(USES, GROUPS)) == []


def test_a_crate_that_names_one_of_a_later_group_is_found():
    groups = {"values": "fx_low fx_high", "program": "fx_middle"}
    assert list(wrong_groups(USES, groups)) == ["fx_high names fx_middle, which is in a later group: move what it needs, or change GROUPS in tests/crates.py"]


def test_a_crate_without_a_group_or_with_two_is_found():
    assert any("fx_middle 0 times" in it for it in wrong_groups(USES, {"values": "fx_low fx_high"}))
    assert any("fx_low 2 times" in it for it in wrong_groups(USES, {"values": "fx_low fx_low", "program": "fx_middle fx_high"}))


def test_the_table_of_tests_is_read():
    page = "| Crate | Test files |\n|---|---|\n| `fx_low` | `fx_tests_values`: `low`, `lower`; `fx_tests_network`: `net` |\n| `once` | `tests/rows` |\n"
    assert rows_of(page) == {"fx_low": [("fx_tests_values", "low"), ("fx_tests_values", "lower"), ("fx_tests_network", "net")]}
