"""Which phrases and how many words the pages may have."""
import pytest
from english import LIMITS, OTHER_LIMIT, TOTAL, faults, phrases, words


def written(folder, pages):
    """Writes a repository's pages, and returns all of their faults."""
    for name, text in pages.items():
        path = folder / name
        path.parent.mkdir(exist_ok=True)
        path.write_text(text, encoding="utf-8")
    return [fault for found in faults(folder) for fault in found]


def test_plain_pages_pass(tmp_path):
    assert written(tmp_path, {"README.md": "# once\n\nIt reports each fault with its place.\n", "docs/GUIDE.md": "Plain.\n"}) == []


@pytest.mark.parametrize(
    "sentence",
    [
        "`lint` tells the first fault.",
        "The number stands in the answer.",
        "A line behind the step is refused.",
        "It fails for want of memory.",
        "What comes of it is printed.",
        "The reader lets it go.",
        "Write the port in place of the name.",
        "It has so many lines.",
        "Wrong words end with status 6.",
        "It took 23 minutes by the clock.",
    ],
)
def test_a_planted_phrase_is_found_with_its_line(tmp_path, sentence):
    found = written(tmp_path, {"docs/GUIDE.md": f"# Guide\n\nPlain.\n\n{sentence}\n"})
    assert len(found) == 1 and found[0].startswith("docs/GUIDE.md:5: ")


@pytest.mark.parametrize("text", ["`told`", '"stands behind"', "    $ once tells\n", "```\nbehind\n```\n", "[page](behind.md)", "a stand-in"])
def test_code_quoted_text_and_links_are_left_alone(text):
    assert list(phrases("docs/GUIDE.md", text)) == []


def test_a_page_that_is_written_elsewhere_is_not_checked_for_phrases(tmp_path):
    assert written(tmp_path, {"docs/REFUSALS.md": "It tells.\n"}) == []


def test_a_page_that_is_too_long_fails(tmp_path):
    assert written(tmp_path, {"docs/SCALE.md": "word " * LIMITS["docs/SCALE.md"]}) == []
    assert "at most" in written(tmp_path, {"docs/SCALE.md": "word " * (LIMITS["docs/SCALE.md"] + 1)})[0]


def test_all_pages_together_are_limited(tmp_path):
    pages = {f"docs/PAGE{number}.md": "word " * OTHER_LIMIT for number in range(TOTAL // OTHER_LIMIT)}
    assert written(tmp_path, pages) == []
    assert written(tmp_path, {**pages, "docs/MORE.md": "word"}) == [f"the pages have {TOTAL + 1} words, {TOTAL} at most"]


def test_words_are_counted_without_code_and_signs():
    assert words("# One | two |\n\n- three `four`\n\n    $ not counted\n\n```\nnor this\n```\n") == 4
