"""The program once-import: its commands, what they print, and their exit statuses."""
from __future__ import annotations

import contextlib
import io
import json
import shutil
import subprocess
import sys
from dataclasses import dataclass
from pathlib import Path

import pytest

from conftest import TESTS
from once_tools.import_main import COMMANDS, main
from projects import BOTH_WAYS, COLLECTOR, DEVICE, RECORD, REPORT, TRAFFIC

PROGRAM = TESTS.parent / "once-import"
IN = RECORD + "interface GigabitEthernet0/0\n ip flow monitor M input\ninterface GigabitEthernet0/1\n ip flow monitor M input\n"
SAMPLED = IN.replace("ip flow monitor M input", "ip flow monitor M sampler S input") + "sampler S\n mode random 1 out-of 9\n"
PROJECT = REPORT + DEVICE + COLLECTOR + TRAFFIC


@dataclass
class Ran:
    """What a command printed, and its exit status."""

    returncode: int
    stdout: str
    stderr: str


def run(*arguments: str | Path, cwd: Path) -> Ran:
    """Runs the program in this process."""
    out, err = io.StringIO(), io.StringIO()
    with contextlib.chdir(cwd), contextlib.redirect_stdout(out), contextlib.redirect_stderr(err):
        try:
            status = main([str(one) for one in arguments])
        except SystemExit as end:
            status = int(end.code or 0)
    return Ran(status, out.getvalue(), err.getvalue())


def project(folder: Path, text: str, config: str = IN) -> None:
    (folder / "project.toml").write_text(text)
    (folder / "r.cfg").write_text(config)


def test_writes_documents_and_prints_the_report(tmp_path: Path) -> None:
    project(tmp_path, PROJECT)
    found = run("project.toml", "--out", "made", cwd=tmp_path)
    assert (found.returncode, found.stderr) == (0, "")
    assert sorted(one.name for one in (tmp_path / "made").iterdir()) == ["network.json", "report.json", "report.txt",
                                                                         "traffic.json"]
    assert (tmp_path / "made" / "report.txt").read_text() == found.stdout
    assert "What a certificate means here" in found.stdout


def test_nothing_is_written_if_something_is_wrong(tmp_path: Path) -> None:
    project(tmp_path, PROJECT.replace('from = ["r:Gi0/0"]', 'from = ["r:Gi0/7"]'))
    found = run("project.toml", "--out", "made", cwd=tmp_path)
    assert found.returncode == 2
    assert not (tmp_path / "made").exists()
    assert found.stdout.startswith("wrong project.toml:10: ")


@pytest.mark.parametrize("config, status", [(IN, 0), (SAMPLED, 7), (BOTH_WAYS, 1)])
def test_audit(once: str, tmp_path: Path, config: str, status: int) -> None:
    project(tmp_path, PROJECT, config)
    found = run("audit", "project.toml", "--once", once, "--out", "made", cwd=tmp_path)
    assert (found.returncode, found.stderr) == (status, "")
    assert (tmp_path / "made" / ("refutation.txt" if status == 1 else "certificate.txt")).exists()


def test_audit_without_once(tmp_path: Path) -> None:
    project(tmp_path, PROJECT)
    found = run("audit", "project.toml", "--once", "none-of-this-name", cwd=tmp_path)
    assert found.returncode == 5
    assert "there is no program 'none-of-this-name'" in found.stderr


def test_faithful_audit_names_the_sampler(once: str, tmp_path: Path) -> None:
    project(tmp_path, PROJECT, SAMPLED)
    found = run("audit", "project.toml", "--faithful", "--once", once, cwd=tmp_path)
    assert found.returncode == 2
    assert "warning r.cfg:19: 'ip flow monitor M sampler S input': once refuses this with 108" in found.stdout


def test_blame_of_kept_documents(once: str, tmp_path: Path) -> None:
    project(tmp_path, PROJECT, BOTH_WAYS)
    run("project.toml", "--out", "made", cwd=tmp_path)
    answer = subprocess.run([once, "audit", "made/network.json", "made/traffic.json"], cwd=tmp_path, capture_output=True, text=True)
    (tmp_path / "answer").write_text(answer.stdout)
    (tmp_path / "r.cfg").unlink()
    found = run("blame", "made/network.json", "answer", cwd=tmp_path)
    assert found.returncode == 1
    assert found.stdout.startswith("warning r.cfg:19: 'ip flow monitor M input': this and r.cfg:23: 'ip flow monitor M output' "
                                   "meter the same packets: 'up' comes in at r GigabitEthernet0/0 and leaves at r "
                                   "GigabitEthernet0/1, so each counts twice")
    answer = subprocess.run([once, "audit", "--format", "json", "made/network.json", "made/traffic.json"], cwd=tmp_path, capture_output=True, text=True)
    (tmp_path / "answer").write_text(answer.stdout)
    assert run("blame", "made/network.json", "answer", cwd=tmp_path) == found


@pytest.mark.parametrize("text, status", [("once-certificate 1\nend\n", 0), ("nonsense", 2), ("once-refutation 2\n", 2),
                                          ("refused 102 /x", 1), ("once-refutation 2\npacket 9 9 1 2 3 4 5 6 7 8 9 10\n", 1)])
def test_blame_of_other_texts(tmp_path: Path, text: str, status: int) -> None:
    project(tmp_path, PROJECT)
    run("project.toml", "--out", "made", cwd=tmp_path)
    (tmp_path / "answer").write_text(text)
    found = run("blame", "made/network.json", "answer", cwd=tmp_path)
    assert found.returncode == status and "Traceback" not in found.stderr


def test_reports_as_json_and_for_github(tmp_path: Path) -> None:
    folder = tmp_path / "net"
    folder.mkdir()
    project(folder, PROJECT, SAMPLED)
    found = run("net/project.toml", "--format", "json", cwd=tmp_path)
    report = json.loads(found.stdout)
    assert report["status"] == 1
    first = report["findings"][0]
    assert (first["grade"], first["device"], first["file"], first["line"], first["number"]) == ("not carried over", "r", "r.cfg",
19, 108)
    found = run("net/project.toml", "--format", "github", cwd=tmp_path)
    assert found.stdout.startswith("::error file=net/r.cfg,line=19::not carried over r.cfg:19: ")
    assert all(line.startswith("::") for line in found.stdout.splitlines())


def test_show_and_kinds(tmp_path: Path) -> None:
    project(tmp_path, PROJECT)
    found = run("show", "project.toml", "r", cwd=tmp_path)
    assert "observation point M input" in found.stdout and found.returncode == 0
    found = run("show", "project.toml", "s", cwd=tmp_path)
    assert found.returncode == 2 and "there is no device 's'" in found.stderr
    found = run("kinds", cwd=tmp_path)
    assert found.returncode == 0 and "show running-config" in found.stdout


@pytest.mark.parametrize("arguments", [[], ["frobnicate", "x", "y"], ["audit"], ["project.toml", "--format", "xml"], ["--frob"]])
def test_wrong_arguments(tmp_path: Path, arguments: list[str]) -> None:
    project(tmp_path, PROJECT)
    found = run(*arguments, cwd=tmp_path)
    assert found.returncode == 6 and "Traceback" not in found.stderr


def test_a_project_that_is_missing(tmp_path: Path) -> None:
    found = run("none.toml", cwd=tmp_path)
    assert (found.returncode, found.stdout) == (5, "")
    assert found.stderr.startswith("wrong none.toml: cannot be read: No such file or directory")


def test_an_output_that_cannot_be_written(tmp_path: Path) -> None:
    project(tmp_path, PROJECT)
    (tmp_path / "made").write_text("a file")
    found = run("project.toml", "--out", "made", cwd=tmp_path)
    assert found.returncode == 5 and "Traceback" not in found.stderr


def test_a_new_project_is_audited_as_it_is(once: str, tmp_path: Path) -> None:
    shutil.copy(TESTS / "samples" / "cisco-ios-xe" / "edge-1.cfg", tmp_path)
    found = run("new", ".", cwd=tmp_path)
    assert found.returncode == 0
    (tmp_path / "project.toml").write_text(found.stdout)
    found = run("audit", "project.toml", "--once", once, cwd=tmp_path)
    assert found.returncode == 0
    assert "IPv6 is not configured at edge-1 GigabitEthernet0/0/1" in found.stdout
    config = tmp_path / "edge-1.cfg"
    text = config.read_text()
    config.write_text(text.replace(" ip address 10.2.0.1 255.255.0.0\n", " ip address 10.2.0.1 255.255.0.0\n ipv6 enable\n"))
    assert text != config.read_text()
    found = run("audit", "project.toml", "--once", once, cwd=tmp_path)
    assert found.returncode == 1  # now customer B has IPv6, and no monitor of it
    assert "certificate of IPv4, checked" in found.stdout and "refutation of IPv6, confirmed" in found.stdout


def program_that(folder: Path, does: str) -> Path:
    """Returns a program in the place of `once`."""
    made = folder / "once-that-fails"
    made.write_text(f"#!/bin/sh\n{does}\n")
    made.chmod(0o755)
    return made


@pytest.mark.parametrize("does, status", [("kill -9 $$", 5), ("exit 134", 5), ("exit 4", 4), ("exit 0", 5)])
def test_a_program_that_fails_is_no_certificate(tmp_path: Path, does: str, status: int) -> None:
    project(tmp_path, PROJECT)
    found = run("audit", "project.toml", "--once", program_that(tmp_path, does), cwd=tmp_path)
    assert found.returncode == status and "no answer" in found.stdout


def test_a_program_that_is_too_old(tmp_path: Path) -> None:
    project(tmp_path, PROJECT)
    found = run("audit", "project.toml", "--once", program_that(tmp_path, "echo \"error: unexpected argument '--format' found\"; exit 6"), cwd=tmp_path)
    assert (found.returncode, found.stdout) == (5, "")
    assert found.stderr == "wrong: `once` does not have the option --format json; use once 1.0.0 or later, as it is installed beside this program\n"


def test_a_certificate_of_documents_that_differ_says_so(once: str, tmp_path: Path) -> None:
    project(tmp_path, PROJECT, SAMPLED)
    found = run("audit", "project.toml", "--once", once, cwd=tmp_path)
    assert found.returncode == 7
    assert found.stdout.endswith("certificate, checked, but of documents that differ from the devices: see the lines 'not "
                                 "carried over'\n")


def test_a_certificate_says_that_something_is_accepted(once: str, tmp_path: Path) -> None:
    project(tmp_path, PROJECT + '[accept]\nsampler = ["r"]\n', SAMPLED)
    found = run("audit", "project.toml", "--once", once, cwd=tmp_path)
    assert found.returncode == 0
    assert found.stdout.endswith("is counted exactly once, apart from what is accepted\n")


def test_a_fault_of_the_program_is_no_answer(tmp_path: Path, monkeypatch: pytest.MonkeyPatch) -> None:
    def fails(*_: object) -> None:
        raise KeyError("lost")
    monkeypatch.setattr("once_tools.commands.convert.import_project", fails)
    project(tmp_path, PROJECT)
    found = run("project.toml", cwd=tmp_path)
    assert found.returncode == 5
    assert found.stderr.startswith("once-import has a fault: KeyError at test_commands.py:")


def test_answers_of_an_earlier_audit_are_taken_out(once: str, tmp_path: Path) -> None:
    project(tmp_path, PROJECT.replace('"sourceIPv4Address"', '"source"'))
    assert run("audit", "project.toml", "--out", "made", "--once", once, cwd=tmp_path).returncode == 0
    assert (tmp_path / "made" / "ipv4" / "certificate.txt").is_file()
    project(tmp_path, PROJECT)
    assert run("audit", "project.toml", "--out", "made", "--once", once, cwd=tmp_path).returncode == 0
    assert [str(one.relative_to(tmp_path)) for one in tmp_path.rglob("certificate.txt")] == ["made/certificate.txt"]


@pytest.mark.parametrize("encoding", ["utf-16", "utf-8-sig"])
def test_configurations_as_windows_writes_them(tmp_path: Path, encoding: str) -> None:
    project(tmp_path, PROJECT)
    first = run("project.toml", cwd=tmp_path).stdout
    (tmp_path / "r.cfg").write_bytes(IN.replace("\n", "\r\n").encode(encoding))
    assert run("project.toml", cwd=tmp_path).stdout == first


def test_the_program_in_a_pipe_that_is_closed(tmp_path: Path) -> None:
    found = subprocess.run(f"{sys.executable} {PROGRAM} kinds | true", cwd=tmp_path, shell=True, capture_output=True, text=True)
    assert "Traceback" not in found.stderr


def test_help_lists_all_commands(tmp_path: Path) -> None:
    found = run("--help", cwd=tmp_path)
    assert found.returncode == 0
    assert all(f"    {name} " in found.stdout for name in COMMANDS)
