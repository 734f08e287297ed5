"""What all tests need: the package on the path, and the program `once`."""
from __future__ import annotations

import importlib
import os
import shutil
import sys
from pathlib import Path
from typing import Any

import pytest

TESTS = Path(__file__).resolve().parent
TOP = TESTS.parent.parent
sys.path.insert(0, str(TESTS.parent))
sys.path.insert(0, str(TESTS))


def needed(name: str, *places: str | Path) -> str:
    """Returns the path of a program; without it the test is skipped, or fails if CI is `true`."""
    for place in (*places, name):
        found = shutil.which(str(place))
        if found:
            return found
    reason = f"there is no program {name}"
    if os.environ.get("CI") == "true":
        pytest.fail(reason)
    pytest.skip(reason)


def module(name: str) -> Any:
    """Returns a module; without it the test is skipped, or fails if CI is `true`."""
    try:
        return importlib.import_module(name)
    except ImportError:
        reason = f"there is no module {name}"
    if os.environ.get("CI") == "true":
        pytest.fail(reason)
    pytest.skip(reason)


@pytest.fixture(scope="session")
def once() -> str:
    """The program `once`: that of the variable ONCE, of the repository, or of the PATH."""
    return needed("once", os.environ.get("ONCE", "once"), TOP / "once")


@pytest.fixture(scope="session")
def demo(once: str, tmp_path_factory: pytest.TempPathFactory) -> Path:
    """A folder with the reports of the examples and others."""
    from report_pages import build

    module("jinja2")
    needed("dot")
    folder = tmp_path_factory.mktemp("demo")
    build(once, folder)
    return folder
