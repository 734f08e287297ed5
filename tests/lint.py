#!/usr/bin/env python3
"""Checks the Python of the repository with pyflakes, that scripts import in one direction, and run programs by one module.

usage: lint.py [FOLDER]

FOLDER is the repository. pyflakes (Debian's package python3-pyflakes) finds unused and undefined names. bench/ and packaging/ may put
tests/ on their path, which has what all share; scripts of tests/ import nothing from there, so there are no circles, and they run
programs by tests/program.py. Without pyflakes the first is listed as not run. Prints a line for each fault, and last
`N passed, M failed`, of files.
"""
import argparse
import ast
import glob
import os
import sys

from program import NOWHERE, WITH_OUTPUT, run
from verdict import not_run, report

TOP = os.path.dirname(os.path.dirname(os.path.abspath(__file__)))
FILES = ("tests/**/*.py", "bench/*.py", "packaging/*.py", "tools/**/*.py", "examples/**/*.py")
# Faults that stay until their files are changed for another reason: these files are part of the digests of kept verdicts.
KNOWN = {"tests/mutation/copies.py": ("'mutation.edits.module_of' imported but unused",)}
# Scripts that are run from elsewhere and put their own folder on the path: the digests of kept verdicts have the first.
OWN_PATH = ("tests/mutants.py", "tests/unit/conftest.py")
# What runs programs by itself: the runner, what kept verdicts rest on, and tests of these.
OWN_RUNS = ("tests/program.py", "tests/kit.py", "tests/mutants.py", "tests/mutation/", "tests/unit/")


def files_of(folder):
    """Returns the Python files of a repository, by name."""
    found = {path for pattern in FILES for path in glob.glob(os.path.join(folder, pattern), recursive=True)}
    return sorted(os.path.relpath(path, folder) for path in found)


def has_pyflakes():
    return run([sys.executable, "-c", "import pyflakes"], stderr=NOWHERE).returncode == 0


def flakes(folder, names):
    """Returns what pyflakes says of the files, by file."""
    ran = run([sys.executable, "-m", "pyflakes", *names], folder, stderr=WITH_OUTPUT, text=True)
    found = {}
    for line in ran.stdout.splitlines():
        name = line.split(":")[0]
        if not any(line.endswith(it) for it in KNOWN.get(name, ())):
            found.setdefault(name, []).append(line)
    return found


def habits(folder, name):
    """Yields where a script of tests/ changes the path on which modules are found, or runs programs by itself."""
    with open(os.path.join(folder, name), encoding="utf-8") as file:
        tree = ast.parse(file.read())
    for node in ast.walk(tree):
        if isinstance(node, ast.Import) and any(it.name == "subprocess" for it in node.names) and not name.startswith(OWN_RUNS):
            yield f"{name}:{node.lineno}: imports subprocess: run programs by tests/program.py"
        is_path = isinstance(node, ast.Attribute) and node.attr == "path" and isinstance(node.value, ast.Name) and node.value.id == "sys"
        if is_path and name not in OWN_PATH:
            yield f"{name}:{node.lineno}: changes sys.path: move what is shared into tests/, and import it from there"


def faults(folder, has_checker):
    """Yields the faults of each file."""
    names = files_of(folder)
    said = flakes(folder, names) if has_checker else {}
    for name in names:
        yield [*said.get(name, ()), *(habits(folder, name) if name.startswith("tests/") else ())]


def main(arguments):
    parser = argparse.ArgumentParser(usage="lint.py [FOLDER]")
    parser.add_argument("folder", nargs="?", default=TOP)
    folder, there = parser.parse_args(arguments).folder, has_pyflakes()
    if not there:
        not_run("pyflakes over the Python files", "python3 has no pyflakes (Debian's package python3-pyflakes)")
    return report(faults(folder, there))


if __name__ == "__main__":
    sys.exit(main(sys.argv[1:]))
