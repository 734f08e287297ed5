"""What a kept verdict rests on: whatever changes, exactly the mutants that depend on it are tried again."""
import os
import shutil
from dataclasses import dataclass, field

import pytest
from mutation.edits import Edit
from mutation.store import TESTS, Digests, Store, digest_of_scripts, store_folder

BODY = "pub fn %s(value: u64) -> u64\n    ensures { result ≡ value }\n{\n    value\n}\n"


@dataclass
class Crate:
    """A crate as the kit has it: its name, its folder, its line of crates.txt, and the crates that the line names."""

    name: str
    folder: str
    deps: list
    of_kit: list = field(default_factory=lambda: ["std"])

    @property
    def said(self):
        return {"name": self.name, "deps": [it.name for it in self.deps]}


class Kit:
    """A kit that is only its identity."""

    KIT = "/nowhere"

    def __init__(self, identity="kit 1"):
        self.identity = identity

    def kit_sum(self):
        return self.identity


class Repository:
    """Four crates: `top` and `side` use `middle`, which uses `low`; each with one mutant. The scripts are copied beside them."""

    def __init__(self, root):
        self.root, self.kit, self.scripts = str(root), Kit(), f"{root}/tests"
        shutil.copytree(f"{TESTS}/mutation", f"{self.scripts}/mutation", ignore=shutil.ignore_patterns("__pycache__"))
        shutil.copy(f"{TESTS}/kit.py", self.scripts)
        self.write("HANDLES", "Handles allowed: none.\n")
        low = self.crate("low", [])
        middle = self.crate("middle", [low])
        self.crates = [low, middle, self.crate("top", [middle]), self.crate("side", [middle])]

    def crate(self, name, deps):
        self.write(f"crates/{name}/src/lib.rt", BODY % name)
        self.write(f"crates/{name}/specs/Lib.antt", f"definition of {name}\n")
        self.write(f"crates/{name}/proofs/lib/{name}/Answers.antt", f"answer of {name}\n")
        self.write(f"crates/{name}/mutants/changed.edit", "file: src/lib.rt\nold:     value\nnew:     value + 1\n")
        return Crate(name, f"{self.root}/crates/{name}", deps)

    def write(self, path, text):
        path = f"{self.root}/{path}"
        os.makedirs(os.path.dirname(path), exist_ok=True)
        with open(path, "w", encoding="utf-8") as it:
            it.write(text)

    def names(self):
        """Returns the digest of each crate's mutant."""
        digests = Digests(self.kit, self.root, self.scripts)
        return {it.name: digests.of_mutant(it, Edit(it.folder, f"{it.folder}/mutants/changed.edit")) for it in self.crates}

    def tried_again_after(self, change):
        """Returns the crates whose mutants are tried again after a change."""
        before = self.names()
        change()
        now = self.names()
        return {it for it in now if now[it] != before[it]}


@pytest.fixture
def repository(tmp_path):
    return Repository(tmp_path)


ABOVE_LOW, ABOVE_MIDDLE = {"low", "middle", "top", "side"}, {"middle", "top", "side"}


@pytest.mark.parametrize(
    "path, text, wanted",
    [
        pytest.param("crates/middle/src/lib.rt", (BODY % "middle").replace("≡ value", "≤ value"), ABOVE_MIDDLE, id="a contract below"),
        pytest.param("crates/low/specs/Lib.antt", "another definition\n", ABOVE_LOW, id="a definition two crates below"),
        pytest.param("crates/top/proofs/lib/top/Answers.antt", "another answer\n", {"top"}, id="a proof file"),
        pytest.param("crates/low/proofs/New.antt", "a lemma\n", ABOVE_LOW, id="a new proof file below"),
        pytest.param("crates/side/src/new.rt", "\n", {"side"}, id="a new source file"),
        pytest.param("tests/mutation/verdicts.py", "# changed\n", ABOVE_LOW, id="a script"),
        pytest.param("tests/mutation/new.py", "\n", ABOVE_LOW, id="a new script"),
        pytest.param("tests/kit.py", "# changed\n", ABOVE_LOW, id="the script that loads the kit"),
        pytest.param("HANDLES", "Handles allowed: Net.\n", ABOVE_LOW, id="the handles allowed"),
        pytest.param("crates/top/mutants/changed.edit", "file: src/lib.rt\nold:     value\nnew:     value + 2\n", {"top"}, id="the edit"),
        pytest.param("crates/low/mutants/other.edit", "file: src/lib.rt\nold:     value\nnew:     0\n", set(), id="another edit"),
        pytest.param("crates/low/out/rlib/stamp", "made\n", set(), id="what a check made"),
        pytest.param("docs/GATE.md", "text\n", set(), id="a page"),
    ],
)
def test_a_changed_file_has_its_dependents_tried_again(repository, path, text, wanted):
    assert repository.tried_again_after(lambda: repository.write(path, text)) == wanted


def test_a_removed_file_has_its_dependents_tried_again(repository):
    path = f"{repository.root}/crates/middle/proofs/lib/middle/Answers.antt"
    assert repository.tried_again_after(lambda: os.remove(path)) == ABOVE_MIDDLE


def test_another_kit_has_all_tried_again(repository):
    assert repository.tried_again_after(lambda: setattr(repository, "kit", Kit("kit 2"))) == ABOVE_LOW


def test_another_line_of_crates_txt_has_its_dependents_tried_again(repository):
    low, _, top, _ = repository.crates
    assert repository.tried_again_after(lambda: top.deps.append(low)) == {"top"}
    assert repository.tried_again_after(lambda: low.of_kit.append("serde_json")) == ABOVE_LOW


def test_nothing_is_tried_again_if_nothing_changed(repository):
    assert repository.tried_again_after(lambda: None) == set()


def test_what_a_mutant_shows_does_not_bear_on_its_verdict(repository):
    text = "file: src/lib.rt\nold:     value\nnew:     value + 1\nshows: row version\n"
    assert repository.tried_again_after(lambda: repository.write("crates/top/mutants/changed.edit", text)) == set()


def test_octets_moved_from_file_to_file_are_seen(repository):
    before = repository.names()
    repository.write("crates/low/specs/A.antt", "one\n")
    repository.write("crates/low/specs/B.antt", "two\n")
    first = repository.names()
    repository.write("crates/low/specs/A.antt", "one\ntwo\n")
    repository.write("crates/low/specs/B.antt", "")
    assert len({it["top"] for it in (before, first, repository.names())}) == 3


def test_the_scripts_digest_leaves_compiled_files_out(repository):
    before = digest_of_scripts(repository.scripts)
    repository.write("tests/mutation/__pycache__/verdicts.cpython-311.pyc", "made\n")
    assert digest_of_scripts(repository.scripts) == before


def test_an_entry_is_read_back(tmp_path):
    store = Store(str(tmp_path), "mutants")
    assert store.get("a" * 64) is None
    store.put("a" * 64, "refused at f")
    assert store.get("a" * 64) == "refused at f"
    assert Store(str(tmp_path), "steps").get("a" * 64) is None


def test_anew_reads_no_entry_and_writes_them(tmp_path):
    Store(str(tmp_path), "mutants", is_anew=True).put("a" * 64, "refused at f")
    assert Store(str(tmp_path), "mutants", is_anew=True).get("a" * 64) is None
    assert Store(str(tmp_path), "mutants").get("a" * 64) == "refused at f"


@pytest.mark.parametrize("text", ["", "{", "[]", '{"digest": "b", "text": "refused"}', '{"digest": "%s", "text": 1}' % ("a" * 64)])
def test_a_damaged_entry_counts_for_nothing(tmp_path, text):
    (tmp_path / "mutants").mkdir()
    (tmp_path / "mutants" / ("a" * 64)).write_text(text)
    assert Store(str(tmp_path), "mutants").get("a" * 64) is None


def test_without_a_folder_nothing_is_kept():
    store = Store(None, "mutants")
    store.put("a" * 64, "refused")
    assert store.get("a" * 64) is None


def test_the_store_lies_beside_the_kit_or_below_the_home_directory(tmp_path, monkeypatch):
    kit = tmp_path / "opt" / "kit"
    kit.mkdir(parents=True)
    monkeypatch.setenv("XDG_CACHE_HOME", str(tmp_path / "cache"))
    assert store_folder(str(kit)) == str(tmp_path / "opt" / "once-kept")
    assert store_folder("/proc/kit") == str(tmp_path / "cache" / "once-kept")
