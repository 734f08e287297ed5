"""Copies of functions for mutants: their heads, and what is no code in a text."""
from mutation.copies import without_tactic
from mutation.texts import blanked, functions


def test_a_head_loses_its_own_tactic():
    head = '/// Returns it: `#[tactic(none)]`.\n#[inline]\n#[tactic(auto, using(crate::proofs::Held::[a, "]"]))]\npub fn '
    assert without_tactic(head) == "/// Returns it: `#[tactic(none)]`.\n#[inline]\npub fn "


def test_a_head_without_a_tactic_is_kept():
    head = "/// Has #[tactic(auto)] in a comment.\npub fn "
    assert without_tactic(head) == head


def test_comments_and_literals_are_blanked():
    text = """a // "b"\nc /* d\n' */ "e\\"f" r#"g"h"# b"i" br"\\" 'j' '\\'' '\\u{1f}' <'k> for"l" x'y"""
    assert blanked(text).split() == ["a", "c", "b", "<'k>", "for", "x'y"]
    assert [len(it) for it in blanked(text).split("\n")] == [len(it) for it in text.split("\n")]


def test_functions_inside_functions_are_part_of_them():
    found = functions("fn f() { fn g() {} }\nimpl T { fn h(&self) { \"fn i() {}\"; } }\n")
    assert [it.name for it in found] == ["f", "h"]
