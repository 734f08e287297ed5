"""Programs that tests compare with. A test whose program is missing is skipped, and fails where CI is `true`."""
from __future__ import annotations

import os
import shutil
from pathlib import Path

import pytest

TOP = Path(__file__).resolve().parents[2]


def need(name: str) -> str:
    """Returns the path of a program; `once` may also stand at the top of the repository or in the variable ONCE."""
    candidates = [os.environ.get("ONCE", ""), str(TOP / "once")] if name == "once" else []
    for candidate in [*candidates, name]:
        found = shutil.which(candidate) if candidate else None
        if found:
            return found
    message = f"the program {name} is missing"
    if os.environ.get("CI") == "true":
        pytest.fail(message)
    pytest.skip(message)
