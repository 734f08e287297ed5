"""Which names of pages exist in the sources."""
import pytest
from names import Sources, faults


@pytest.fixture
def sources(tmp_path):
    files = {
        "crates/fx_low/src/lib.rt": "pub fn first() {}\n",
        "crates/fx_low/src/map/entry.rt": "pub struct Entry;\nimpl Entry { pub fn taken() {} }\n",
        "crates/fx_low/specs/Maps.antt": "IsMap : Set\n",
        "crates/fx_low/proofs/map/entry/Answers.antt": "lemma\n",
    }
    for name, text in files.items():
        path = tmp_path / name
        path.parent.mkdir(parents=True, exist_ok=True)
        path.write_text(text, encoding="utf-8")
    return Sources(str(tmp_path))


@pytest.mark.parametrize(
    "name",
    ["fx_low", "fx_low/Maps", "fx_low/entry.rt", "entry.rt", "crates/fx_low/src/lib.rt", "fx_low/specs/Maps.antt", "fx_low/proofs/map/entry/Answers",
     "specs/Maps.antt", "Entry::taken", "IsMap", "NAME_command.rt", "404", "any other text"],
)
def test_what_exists_passes(sources, name):
    assert list(faults("page", f"See `{name}`.\n", sources)) == []


@pytest.mark.parametrize("name", ["fx_high", "fx_low/Lists", "other.rt", "fx_low/src/none.rt", "Entry::gone", "IsList", "is_gone"])
def test_what_does_not_exist_is_found_with_its_line(sources, name):
    found = list(faults("page", f"# Page\n\nSee `{name}`.\n", sources))
    assert len(found) == 1 and found[0].startswith(f"page:3: there is no {name}")
