"""Where long lines are broken, and which may stay."""
import line_width


def test_breaks_a_type_before_an_arrow_of_least_depth():
    line = "pub one : " + "(a : List ℕ) → " * 8 + "a ≡ b"
    first, second = line_width.proof_line(line)
    assert second.startswith("    → ") and len(first) <= line_width.WIDTH
    assert f"{first} {second.strip()}" == line


def test_breaks_between_arguments_outside_of_parentheses():
    line = "    lemma " + "(inner one two three) " * 7
    lines = line_width.proof_line(line.rstrip())
    assert all(it.strip().startswith(("lemma", "(inner")) for it in lines)
    assert " ".join(it.strip() for it in lines) == line.strip()


def test_ends_no_line_with_what_a_term_begins_with():
    line = "    " + "x " * 55 + "λ name. body of the function that goes on"
    assert not any(it.endswith("λ") for it in line_width.proof_line(line))


def test_leaves_a_line_that_has_no_place_for_a_break():
    assert line_width.proof_line("a" * 130) == ["a" * 130]


def test_fills_comments_of_proofs():
    lines = [*line_width.proof_lines(["  -- " + "word " * 40])]
    assert len(lines) == 2 and all(it.startswith("  -- word") for it in lines)


def test_fills_only_the_paragraph_of_a_doc_comment_that_is_too_long():
    lines = ["/// " + "word " * 30, "/// more", "///", "/// - an item", "fn f() {}"]
    made = [*line_width.source_lines(lines)]
    assert made[-3:] == lines[-3:] and made[1].endswith("more") and all(len(it) <= line_width.WIDTH for it in made)


def test_imports_and_texts_may_be_long():
    long = "a" * 130
    assert not [*line_width.faults("f.antt", [f"use Rattle.std.{{{long}}}"])]
    assert not [*line_width.faults("f.rt", ['    "begins', long, '"'])]
    assert len([*line_width.faults("f.rt", [f"// {long}"])]) == 1
    assert len([*line_width.faults("f.antt", [long])]) == 1
