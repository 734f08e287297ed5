"""Runs `once` over documents."""
from __future__ import annotations

import shutil
import subprocess
from dataclasses import dataclass
from pathlib import Path

from once_tools.model import Failed, Place


@dataclass(frozen=True)
class Run:
    """What `once` printed, and its exit status."""

    status: int
    output: str
    errors: str = ""


def find_once(named: str | None) -> str:
    """Returns the path of the program `once`; raises `Failed` if there is none."""
    found = shutil.which(named or "once")
    if found is None:
        raise Failed(Place(""), f"there is no program '{named or 'once'}'",
                     "put `once` on the PATH, or name it by --once PROGRAM")
    return found


def run_once(program: str, *arguments: str | Path) -> Run:
    """Returns what a command of `once` answers."""
    try:
        ran = subprocess.run([program, *map(str, arguments)], capture_output=True, encoding="utf-8", errors="backslashreplace")
    except OSError as error:
        raise Failed(Place(""), f"'{program}' cannot be run: {error.strerror}", "name `once` by --once PROGRAM") from error
    return Run(ran.returncode, ran.stdout, ran.stderr)
