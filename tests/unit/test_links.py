"""Which links of pages lead nowhere."""
from links import anchors, faults, pages


def test_a_link_to_a_missing_file_or_heading_is_found(tmp_path):
    (tmp_path / "docs").mkdir()
    (tmp_path / "docs" / "GUIDE.md").write_text("# Guide\n\n## Read a `run`\n", encoding="utf-8")
    (tmp_path / "README.md").write_text("[a](docs/GUIDE.md#read-a-run) [b](docs/NONE.md) [c](docs/GUIDE.md#none) [d](https://x.org/y)\n", encoding="utf-8")
    assert pages(tmp_path) == ["README.md", "docs/GUIDE.md"]
    assert list(faults(tmp_path, "README.md")) == ["README.md: there is no docs/NONE.md", "README.md: docs/GUIDE.md has no heading #none"]


def test_links_in_code_are_left_alone(tmp_path):
    (tmp_path / "README.md").write_text("    [a](NONE.md)\n", encoding="utf-8")
    assert list(faults(tmp_path, "README.md")) == []


def test_anchors_are_those_of_github():
    assert anchors("# What `check` does, and why\n## 1xx: devices\n") == {"what-check-does-and-why", "1xx-devices"}
