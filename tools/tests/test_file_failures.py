"""The exit status of each command for files that are missing or cannot be read, and for those with wrong contents.

The statuses are those of the help and of tools/README.md: 5 if a file failed, 2 if its contents are wrong.
"""
from __future__ import annotations

import os
import shutil
import subprocess
import sys
import tempfile
from pathlib import Path
from typing import Iterator

import pytest

from conftest import TESTS
from projects import COLLECTOR, DEVICE, RECORD, REPORT, TRAFFIC
from test_commands import run

CONFIG = RECORD + "interface GigabitEthernet0/0\n ip flow monitor M input\ninterface GigabitEthernet0/1\n ip flow monitor M input\n"
PROJECT = REPORT + DEVICE + COLLECTOR + TRAFFIC
NOT_UTF_8 = b"\xff\xfe\xfd"[1:] + b"\xe9"
NOBODY = 65534

# A command for each file that it reads; FILE stands for the file. `good` has the other files.
READING = {
    "import": ["FILE"], "audit": ["audit", "FILE", "--once", "ONCE"], "show": ["show", "FILE", "r"],
    "blame network": ["blame", "FILE", "good/answer", "good/traffic.json"],
    "blame answer": ["blame", "good/network.json", "FILE", "good/traffic.json"],
    "blame traffic": ["blame", "good/network.json", "good/answer", "FILE"],
    "table": ["table", "FILE", "made.json"], "exporter": ["exporter", "pmacctd", "-f", "FILE"],
    "streams": ["streams", "FILE"], "template": ["template", "FILE"]}
PROJECTS = ["import", "audit", "show"]


@pytest.fixture
def folder(tmp_path: Path) -> Path:
    """A folder with a project, its documents, and an answer."""
    (tmp_path / "project.toml").write_text(PROJECT)
    (tmp_path / "r.cfg").write_text(CONFIG)
    assert run("project.toml", "--out", "good", cwd=tmp_path).returncode == 0
    (tmp_path / "good" / "answer").write_text("refused 102 /x\n")
    (tmp_path / "once").write_text("#!/bin/sh\nexit 3\n")
    (tmp_path / "once").chmod(0o755)
    return tmp_path


def words(name: str, file: str) -> list[str]:
    """Returns the arguments of a command that reads a file."""
    return [file if word == "FILE" else "./once" if word == "ONCE" else word for word in READING[name]]


@pytest.mark.parametrize("name", READING)
def test_a_file_that_is_missing(name: str, folder: Path) -> None:
    found = run(*words(name, "none"), cwd=folder)
    assert (found.returncode, found.stdout) == (5, "")
    assert found.stderr == f"wrong none: cannot be read: No such file or directory; {todo(name)}\n"


def todo(name: str) -> str:
    return "name a capture that can be read" if name in ("streams", "template") else "name a file that can be read"


@pytest.mark.parametrize("name", READING)
def test_a_folder_in_the_place_of_a_file(name: str, folder: Path) -> None:
    found = run(*words(name, "good"), cwd=folder)
    assert (found.returncode, found.stdout) == (5, "")
    assert found.stderr.startswith("wrong good: cannot be read: Is a directory")


@pytest.mark.parametrize("name", READING)
def test_a_file_whose_octets_cannot_be_read(name: str, folder: Path) -> None:
    """The memory of a process cannot be read at its start, whoever asks."""
    (folder / "mem").symlink_to("/proc/self/mem")
    found = run(*words(name, "mem"), cwd=folder)
    assert (found.returncode, found.stdout) == (5, "")
    assert found.stderr.startswith("wrong mem: cannot be read: Input/output error")


@pytest.mark.parametrize("name", READING)
def test_a_file_that_is_no_utf_8_has_wrong_contents(name: str, folder: Path) -> None:
    (folder / "bad").write_bytes(b'name = "\n' + NOT_UTF_8)
    found = run(*words(name, "bad"), cwd=folder)
    assert found.returncode == 2 and "Traceback" not in found.stderr
    assert found.stderr.startswith("wrong bad") or name == "blame answer"


@pytest.mark.parametrize("name", PROJECTS)
def test_a_project_that_is_no_utf_8_is_cited_by_its_line(name: str, folder: Path) -> None:
    (folder / "bad.toml").write_bytes(PROJECT.encode() + b"# caf\xe9\n")
    line = PROJECT.count("\n") + 1
    found = run(*words(name, "bad.toml"), cwd=folder)
    assert found.returncode == 2
    assert found.stderr == f"wrong bad.toml:{line}: '# caf\\xe9': is not a text in UTF-8; save the file as UTF-8\n"


# What a project names, with the line of the project that a report cites.
NAMED = {
    "configuration": ('config = "r.cfg"', 'config = "none"'), "pattern": ('config = "r.cfg"', 'config = "none*"'),
    "addresses": ('config = "r.cfg"', 'config = "r.cfg"\naddresses = "none"'),
    "routes": ('config = "r.cfg"', 'config = "r.cfg"\nroutes = "none"'),
    "lldp": ('config = "r.cfg"', 'config = "r.cfg"\nlldp = "none"'),
    "collector": ('listen = ["192.0.2.10:4739"]', 'kind = "nfacctd"\nconfig = "none"'),
    "links": ("[[traffic]]", '[links]\ntable = "none"\n[[traffic]]'),
    "neighbours": ("[[traffic]]", '[links]\nlldp = "none"\n[[traffic]]'),
    "batfish": ("[[traffic]]", '[[traffic]]\nbatfish = "none"')}


@pytest.mark.parametrize("name", NAMED)
def test_a_file_that_a_project_names_is_missing(name: str, folder: Path) -> None:
    before, after = NAMED[name]
    assert before in PROJECT
    (folder / "project.toml").write_text(PROJECT.replace(before, after, 1))
    for words in (["project.toml", "--out", "made"], ["audit", "project.toml", "--once", "./once", "--out", "made"]):
        found = run(*words, cwd=folder)
        assert found.returncode == 5 and found.stdout.startswith("wrong project.toml:")
        assert "none" in found.stdout.splitlines()[0] and not (folder / "made").exists()
    if name in ("configuration", "pattern"):
        assert run("show", "project.toml", "r", cwd=folder).returncode == 5


def test_a_missing_file_goes_before_other_faults(folder: Path) -> None:
    text = PROJECT.replace('key = "sourceIPv4Address"', 'key = "sourceAddress"').replace('"r.cfg"', '"none"')
    (folder / "project.toml").write_text(text)
    found = run("project.toml", cwd=folder)
    assert found.returncode == 5 and found.stdout.count("wrong ") >= 1


@pytest.mark.parametrize("content, status", [("", 2), ("caf\xe9", 2)])
def test_a_configuration_that_is_of_no_kind(content: str, status: int, folder: Path) -> None:
    (folder / "r.cfg").write_bytes(content.encode("latin-1"))
    assert run("project.toml", cwd=folder).returncode == status


def test_a_configuration_with_octets_that_are_no_utf_8_is_read(folder: Path) -> None:
    """Descriptions are often written in an older encoding; they do not bear on what is metered."""
    text = CONFIG.replace("interface GigabitEthernet0/0\n", "interface GigabitEthernet0/0\n description caf\xe9\n")
    (folder / "r.cfg").write_bytes(text.encode("latin-1"))
    assert run("project.toml", cwd=folder).returncode == 0


@pytest.mark.parametrize("name", ["none", "r.cfg"])
def test_new_without_a_folder(name: str, folder: Path) -> None:
    found = run("new", name, cwd=folder)
    assert (found.returncode, found.stdout) == (5, "")
    assert found.stderr == f"wrong {name}: this is no folder; name the folder with the configurations\n"


@pytest.mark.parametrize("command", [["table", "good.table", "r.cfg/made.json"], ["project.toml", "--out", "r.cfg/made"]])
def test_documents_that_cannot_be_written(command: list[str], folder: Path) -> None:
    (folder / "good.table").write_text((TESTS.parent / "examples" / "three-devices.table").read_text())
    extra = ["traffic.json"] if command[0] == "table" else []
    found = run(*command, *extra, cwd=folder)
    assert (found.returncode, found.stdout) == (5, "") and "r.cfg" in found.stderr and "Traceback" not in found.stderr
    assert not (folder / "traffic.json").exists()


@pytest.fixture
def open_folder() -> Iterator[Path]:
    """A folder that every user can read, with a copy of the program."""
    made = Path(tempfile.mkdtemp(dir="/tmp"))
    made.chmod(0o755)
    shutil.copytree(TESTS.parent / "once_tools", made / "once_tools", ignore=shutil.ignore_patterns("__pycache__"))
    yield made
    shutil.rmtree(made)


def run_as_nobody(folder: Path, *arguments: str) -> subprocess.CompletedProcess[str]:
    """Runs the program as a user who is not root: root may read all files."""
    who = {"user": NOBODY, "group": NOBODY} if os.geteuid() == 0 else {}
    found: subprocess.CompletedProcess[str] = subprocess.run(  # type: ignore[call-overload]
        [sys.executable, "-B", "-m", "once_tools.import_main", *arguments], cwd=folder, capture_output=True, text=True,
        timeout=60, **who)
    return found


@pytest.mark.parametrize("name", [*READING, "configuration", "new"])
def test_a_file_without_permission(name: str, open_folder: Path, folder: Path) -> None:
    shutil.copytree(folder, open_folder, dirs_exist_ok=True)
    open_folder.chmod(0o755)
    secret = open_folder / ("r.cfg" if name == "configuration" else "secret")
    secret.mkdir() if name == "new" else secret.write_text(CONFIG)
    secret.chmod(0)
    arguments = {"configuration": ["project.toml"], "new": ["new", "secret"]}.get(name) or words(name, "secret")
    found = run_as_nobody(open_folder, *arguments)
    assert found.returncode == 5 and "Permission denied" in found.stdout + found.stderr
    assert "Traceback" not in found.stderr
