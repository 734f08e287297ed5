"""Runs programs: to their end, or in the background until a scenario ends them, each by its own process number."""
from __future__ import annotations

import shutil
import signal
import subprocess
import sys
import time
from dataclasses import dataclass, field
from pathlib import Path
from typing import Iterable, Sequence

TOOLS = Path(__file__).resolve().parents[1]
PREFIX = "once-lab-"
SECONDS = 120.0
# How often a program must be seen asleep in a row.
LOOKS = 3


class LabError(Exception):
    """Something in the lab failed: what, and what to do."""


@dataclass(frozen=True)
class Outcome:
    """What a program printed, and its exit status."""

    status: int
    output: str
    errors: str


def path_of(name: str) -> str:
    """Returns the path of a program, also of one in a folder that only root has on the PATH."""
    for candidate in (name, f"/usr/sbin/{name}", f"/sbin/{name}", f"/usr/lib/frr/{name}"):
        found = shutil.which(candidate)
        if found:
            return found
    raise LabError(f"the program {name} is missing: install the packages of packaging/lab-packages")


def namespace_of(host: str) -> str:
    """Returns the name of a host's network namespace."""
    return PREFIX + host


def within(host: str, words: Sequence[str]) -> list[str]:
    """Returns the command line that runs a command in a host's network namespace."""
    return ["ip", "netns", "exec", namespace_of(host), *words]


def run(words: Sequence[str], host: str = "", check: bool = True, text: str = "", cwd: Path | None = None,
        seconds: float = SECONDS) -> Outcome:
    """Runs a program to its end, in a host's network namespace if one is named. Raises `LabError` if it fails."""
    line = within(host, words) if host else list(words)
    try:
        ran = subprocess.run(line, input=text, capture_output=True, text=True, errors="backslashreplace", cwd=cwd,
                             timeout=seconds)
    except FileNotFoundError as error:
        raise LabError(f"the program {line[0]} is missing: install the packages of packaging/lab-packages") from error
    except subprocess.TimeoutExpired as error:
        raise LabError(f"`{' '.join(words)}` has not ended after {seconds:.0f} s") from error
    if check and ran.returncode:
        said = (ran.stderr or ran.stdout).strip()[-400:]
        raise LabError(f"`{' '.join(words)}`{f' in {host}' if host else ''} ended with status {ran.returncode}: {said}")
    return Outcome(ran.returncode, ran.stdout, ran.stderr)


def agent(name: str, *arguments: str) -> list[str]:
    """Returns the command line of one of the lab's own programs, which start faster without packages of the site."""
    return [sys.executable, "-B", "-I", "-S", str(TOOLS / "lab" / "agents" / f"{name}.py"), *arguments]


@dataclass(eq=False)
class Running:
    """A program in the background, and its log."""

    process: subprocess.Popen[bytes]
    name: str
    log: Path
    ready: tuple[str, ...] = ()

    def text(self) -> str:
        """Returns what it has printed."""
        return self.log.read_text(encoding="utf-8", errors="replace")

    def wait_until_ready(self, seconds: float = 60.0) -> None:
        """Returns when its log has all the words that say that it is ready; raises `LabError` if they do not come."""
        deadline = time.monotonic() + seconds
        while not all(word in self.text() for word in self.ready):
            if self.process.poll() is not None:
                raise LabError(f"{self.name} ended with status {self.process.returncode}: {self.text().strip()[-400:]}")
            if time.monotonic() > deadline:
                raise LabError(f"{self.name} is not ready after {seconds:.0f} s: see {self.log}")
            time.sleep(0.02)

    def is_asleep(self) -> bool:
        """Returns whether it and its children wait for something to come."""
        return all(is_asleep(one) for one in (self.process.pid, *children_of(self.process.pid)))

    def send_signal(self, number: int) -> None:
        """Sends it a signal, if it still runs."""
        if self.process.poll() is None:
            self.process.send_signal(number)

    def end(self, number: int = signal.SIGTERM, seconds: float = 60.0) -> None:
        """Ends it by a signal, and waits; kills it if it does not end."""
        self.send_signal(number)
        try:
            self.process.wait(seconds)
        except subprocess.TimeoutExpired:
            self.process.kill()
            self.process.wait()
            raise LabError(f"{self.name} had to be killed: it did not end within {seconds:.0f} s of signal {number}") from None


@dataclass
class Group:
    """The programs that a scenario started. What still runs at its end is killed, the last one first."""

    folder: Path
    running: list[Running] = field(default_factory=list)

    def start(self, host: str, words: Sequence[str], log: str, *ready: str) -> Running:
        """Starts a program in a host's network namespace; `ready` are words of its log that say that it is ready."""
        path = self.folder / log
        with path.open("wb") as file:
            process = subprocess.Popen(within(host, words), stdout=file, stderr=subprocess.STDOUT, cwd=self.folder,
                                       stdin=subprocess.DEVNULL)
        found = Running(process, words[0], path, ready)
        self.running.append(found)
        return found

    def wait_until_ready(self) -> None:
        """Returns when all programs are ready that still run."""
        for one in self.running:
            if one.process.poll() is None or one.ready and not all(word in one.text() for word in one.ready):
                one.wait_until_ready()

    def kill_rest(self) -> None:
        """Kills what still runs."""
        for one in reversed(self.running):
            if one.process.poll() is None:
                one.process.kill()
                one.process.wait()


def is_asleep(process: int) -> bool:
    """Returns whether all threads of a process wait for something to come, and none runs or waits for a processor. One that has
    ended does."""
    try:
        texts = [path.read_text(encoding="ascii", errors="replace") for path in Path(f"/proc/{process}/task").glob("*/stat")]
    except OSError:
        return True
    return all(text.rpartition(")")[2].split()[0] not in ("R", "D") for text in texts)


def still_busy(running: Iterable[Running], seconds: float = 10.0) -> list[Running]:
    """Waits until programs and their children were seen asleep a few times in a row, so that they have read all that came to
    them. Returns those that are not within some seconds."""
    left = {one: 0 for one in running}
    deadline = time.monotonic() + seconds
    while left and time.monotonic() < deadline:
        left = {one: seen + 1 if one.is_asleep() else 0 for one, seen in left.items() if seen < LOOKS}
        time.sleep(0.02)
    return [one for one, seen in left.items() if seen < LOOKS]


def children_of(process: int) -> list[int]:
    """Returns the child processes of a process."""
    try:
        text = Path(f"/proc/{process}/task/{process}/children").read_text(encoding="ascii")
    except OSError:
        return []
    return [int(word) for word in text.split()]
