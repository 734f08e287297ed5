"""What is wrong with the Python of a repository."""
import sys

import pytest
from lint import faults, files_of


def found_in(folder, files, has_checker=False):
    """Writes files, and returns the faults of all."""
    for name, text in files.items():
        path = folder / name
        path.parent.mkdir(parents=True, exist_ok=True)
        path.write_text(text, encoding="utf-8")
    return [fault for found in faults(folder, has_checker) for fault in found]


def test_a_script_of_tests_does_not_change_the_path(tmp_path):
    found = found_in(tmp_path, {"tests/rows.py": 'import sys\n\nsys.path.insert(0, "bench")\n'})
    assert len(found) == 1 and found[0].startswith("tests/rows.py:3: ")


def test_benchmarks_may_import_from_tests(tmp_path):
    assert found_in(tmp_path, {"bench/run.py": 'import sys\n\nsys.path.insert(0, "tests")\n'}) == []


def test_only_the_runner_calls_subprocess(tmp_path):
    found = found_in(tmp_path, {"tests/rows.py": "import subprocess\n\nsubprocess.run([])\n", "tests/program.py": "import subprocess\n"})
    assert len(found) == 1 and found[0].startswith("tests/rows.py:1: ")


def test_unused_names_are_found(tmp_path):
    pytest.importorskip("pyflakes")
    assert "'os' imported but unused" in found_in(tmp_path, {"tools/once_tools/box.py": "import os\n"}, True)[0]


def test_all_folders_of_python_are_read(tmp_path):
    names = ["tests/a.py", "tests/unit/b.py", "bench/c.py", "packaging/d.py", "tools/once_tools/readers/e.py"]
    found_in(tmp_path, {name: "" for name in names})
    assert files_of(tmp_path) == sorted(names) and sys.version_info >= (3, 9)
