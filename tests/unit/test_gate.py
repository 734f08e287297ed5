"""When a step of the gate fails, and which tests did not run."""
import subprocess
from types import SimpleNamespace

import pytest
from gate import Outcome, versions
from steps import STEPS

LACKS = "not run: links read by nfcapd: it is missing (Debian's package nfdump)\n4 passed, 0 failed\n"


def test_a_test_that_cannot_run_is_listed_and_fails_with_ci():
    found = Outcome(0, LACKS)
    assert found.not_run() == ["not run: links read by nfcapd: it is missing (Debian's package nfdump)"]
    assert found.fault(is_strict=False) is None
    assert "nfdump" in found.fault(is_strict=True)


def test_what_no_package_provides_is_listed_and_passes():
    found = Outcome(0, "SKIPPED [1] tests/test_kernel.py:20: a user namespace is refused here\n4 passed, 1 skipped in 2 s\n")
    assert len(found.not_run()) == 1 and found.fault(is_strict=True) is None


@pytest.mark.parametrize("said", ["0 passed, 0 failed\n", "a line\n0 passed, 0 failed", "no tests ran in 0.01s\n"])
def test_a_script_that_ran_no_case_fails_with_ci(said):
    assert Outcome(0, said).fault(is_strict=False) is None
    assert Outcome(0, said).fault(is_strict=True) == "it ran no case"


def test_a_status_other_than_0_fails():
    assert Outcome(1, "3 passed, 1 failed\n").fault(is_strict=False) == "it ended with status 1"


def test_ten_cases_are_some():
    assert Outcome(0, "10 passed, 0 failed\n").fault(is_strict=True) is None


def test_packages_of_steps_are_listed():
    with open("packaging/test-packages", encoding="utf-8") as file:
        listed = {line.strip() for line in file}
    assert {package for step in STEPS for package in step.needs} <= listed


def test_a_removed_package_is_another_version(monkeypatch):
    """dpkg-query goes on to name the version of a package that was removed and not purged."""
    asked = []
    monkeypatch.setattr(subprocess, "run", lambda words, **how: asked.append(words) or SimpleNamespace(stdout=""))
    versions(("nfdump",))
    assert "${db:Status-Status}" in asked[0][2]
