"""The steps of the gate that follow the proofs and the mutants: what each runs, and what it needs."""
import os
import sys
from dataclasses import dataclass
from typing import Tuple

PROGRAM = "./once"
# The checker by itself, as `rt ci` builds it.
CHECKER = "crates/once_check/out/once_check"
# What the tests of the tools need: programs that meter, collect and capture, and what once-report runs.
IMPORTERS = ("mypy", "graphviz", "iproute2", "jq", "openvswitch-common", "openvswitch-switch", "pmacct", "python3-jinja2", "python3-jsonpatch", "python3-jsonschema", "python3-pytest", "python3-pytest-xdist", "softflowd", "tshark")


@dataclass(frozen=True)
class Step:
    """A script of the gate with its arguments. `needs` are the Debian packages without which some of it cannot run, and `module`
    a Python module that its interpreter must have. A step that `keeps` has a result that depends on the files of the
    repository and the program alone, so it is not run again over the same ones. A step that runs `alone` measures time."""

    name: str
    arguments: Tuple[str, ...]
    needs: Tuple[str, ...] = ()
    keeps: bool = True
    alone: bool = False
    module: str = ""
    is_of_program: bool = True


def script(name, *arguments, **more):
    """Returns a step that runs a script of tests/ over the program."""
    return Step(name, (f"tests/{name}.py", *arguments), **more)


def of_texts(name, *arguments, **more):
    """Returns a step that looks at the repository's files, without the program."""
    return Step(name, (f"tests/{name}.py", *arguments), keeps=False, is_of_program=False, **more)


STEPS = [
    of_texts("definitions", "--compare"),
    of_texts("clauses"),
    of_texts("line_width"),
    of_texts("crates"),
    of_texts("callers"),
    of_texts("refusals", "--compare"),
    of_texts("memory_refusals"),
    of_texts("english"),
    of_texts("links"),
    of_texts("names"),
    of_texts("lint", needs=("python3-pyflakes",), module="pyflakes"),
    Step("unit tests", ("-m", "pytest", "-q", "-p", "no:cacheprovider", "tests/unit"), ("python3-pytest",), False, False, "pytest", False),
    Step("importers", ("make", "--no-print-directory", "run-tools"), IMPORTERS, True),
    script("schemas", PROGRAM, needs=("python3-jsonschema",), module="jsonschema"),
    script("members", PROGRAM),
    script("yang_module", needs=("libyang-tools",)),
    script("tools", PROGRAM),
    script("rows", PROGRAM),
    script("checker", CHECKER, keeps=False),
    script("rows_explained", PROGRAM),
    script("json_rows", PROGRAM, needs=("python3-jsonschema",), module="jsonschema"),
    script("terminal", PROGRAM),
    script("progress", PROGRAM, alone=True),
    script("pages", PROGRAM, needs=("jq",)),
    script("drawings", PROGRAM, needs=("graphviz",)),
    Step("manual", ("packaging/manual.py", PROGRAM, "--compare")),
    script("long_certificates", PROGRAM),
    script("filter_lists", PROGRAM),
    script("split_sizes", PROGRAM),
    script("refused_growth", PROGRAM, needs=("gcc", "libc6-dev")),
    script("failed_devices", PROGRAM, needs=("gcc", "libc6-dev")),
    script("full_files", PROGRAM),
    script("mutated_inputs", PROGRAM),
    script("cut_inputs", PROGRAM),
    script("hostile_keys", PROGRAM, alone=True),
    script("generated_networks", PROGRAM),
    script("json_facts", PROGRAM),
    script("addresses", PROGRAM),
    script("carried_in_pieces", PROGRAM),
    script("link_octets", PROGRAM, needs=("tshark", "libfixbuf-tools", "nfdump")),
    Step("instructions", ("bench/instructions.py", PROGRAM, "--noted", "docs/SPEED.md"), ("valgrind",)),
    script("examples", PROGRAM),
    Step("generated examples", ("tests/generated_networks.py", PROGRAM, "--examples")),
    Step("scale", ("examples/scale/try.sh", "turn"), ("jq",)),
]


def command_of(step):
    """Returns the command of a step, with the first interpreter that has the module it needs."""
    first = step.arguments[0]
    if first == "make":
        return [*step.arguments]
    if first.endswith(".sh"):
        return ["bash", *step.arguments]
    for python in (sys.executable, "/usr/bin/python3"):
        if not step.module or has_module(python, step.module):
            return [python, *step.arguments]
    return [sys.executable, *step.arguments]


def has_module(python, module):
    return os.path.exists(python) and os.spawnl(os.P_WAIT, python, python, "-c", f"import sys; sys.stderr = None; import {module}") == 0
