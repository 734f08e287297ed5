#!/usr/bin/env python3
"""Checks that crates.txt names of each crate exactly the crates that its own files name, by groups, and the table of tests.

usage: crates.py [--write]

A crate's files name another by a path of Rust (`fx_base::Name`, `use serde_json::Value`) or of a definition
(`Rattle.fx_base.specs.Fault`). crates.txt lists the crates by the groups below, lowest first; no crate may name one of a
later group. tests/README.md has a table of the files that test each crate: every file with a test must be in it, and one of a
crate's files must name the crate or a crate that names it. --write writes crates.txt.
"""
import argparse
import glob
import os
import re
import sys

TOP = os.path.dirname(os.path.dirname(os.path.abspath(__file__)))
HEAD = "# a line for each crate, lowest first: its name, and the crates that its own files name\n"
# What is there without being named.
GIVEN = {"std", "core", "crate", "self", "super", "denote"}
# What a crate's line says after its name: the status of a program that is run without arguments.
MARKS = {"once_check": " status=6"}
# The groups, lowest first, with their crates; tests are the crates that no group has.
GROUPS = {
    "values": "fx_base fx_elements fx_boxes fx_layout",
    "model": "fx_tables fx_run_text fx_machine fx_leaf fx_collect fx_runs",
    "formats": "fx_cert fx_wire fx_session fx_link fx_pcap",
    "documents": "fx_walk fx_config fx_ranks fx_selectors fx_topology fx_plan fx_traffic",
    "deciders": "fx_check fx_parts fx_refute fx_steps fx_search",
    "simulation": "fx_store fx_net fx_conform fx_sums",
    "explaining": "fx_words fx_explanation fx_explain_documents fx_explain_runs fx_explain_streams fx_drawings fx_json_answers",
    "program": "fx_checker fx_join fx_audit fx_command_line fx_cli once once_check",
    "tests": "fx_callers fx_tests_documents fx_tests_network fx_tests_program fx_tests_values",
}


def named_by(crate):
    """Returns the crates that the files of a crate name, with what else precedes `::`."""
    found = set()
    for kind, end in (("src", ".rt"), ("specs", ".antt"), ("proofs", ".antt")):
        for file in glob.glob(f"{TOP}/crates/{crate}/{kind}/**/*{end}", recursive=True):
            with open(file, encoding="utf-8") as source:
                lines = [line for line in source if not re.match(r"\s*(//|--)", line)]
            text = "".join(lines)
            found |= set(re.findall(r"\bRattle\.(\w+)\.", text))
            found |= set(re.findall(r"^\s*(?:pub )?use (\w+)(?:::|;)", text, re.M))
            found |= set(re.findall(r"(?<![\w:])(fx_\w+)::", text))
            found |= set(re.findall(r"\bderive\((?:\w+, )*(\w+)::", text))
    return found - GIVEN - {crate}


def uses():
    """Returns the crates of the repository, each with the crates that its files name."""
    ours = sorted(name for name in os.listdir(f"{TOP}/crates") if os.path.isdir(f"{TOP}/crates/{name}/src"))
    found = {}
    for crate in ours:
        modules = {os.path.splitext(os.path.basename(file))[0] for file in glob.glob(f"{TOP}/crates/{crate}/src/*.rt")}
        found[crate] = named_by(crate) - modules
    return found


def in_order(uses):
    """Returns the crates in an order in which each comes after those that it names, else by name."""
    order = []

    def visit(crate):
        if crate not in order:
            for below in sorted(uses[crate] & set(uses)):
                visit(below)
            order.append(crate)

    for crate in uses:
        visit(crate)
    return order


def line_of(crate, uses, order):
    """Returns the line of a crate. The digests of its proofs have it: the order of its words must not change."""
    own = sorted(uses[crate] & set(uses), key=lambda name: -order.index(name))
    return " ".join([f"{crate}{MARKS.get(crate, '')}:", *own, *sorted(uses[crate] - set(uses))])


def listed(uses, groups):
    """Returns what crates.txt should be."""
    order, text = in_order(uses), HEAD
    for group, crates in groups.items():
        text += f"\n# {group}\n" + "".join(line_of(it, uses, order) + "\n" for it in order if it in crates.split())
    return text


def wrong_groups(uses, groups):
    """Yields what is wrong with the groups: a crate without one or with two, or one that names a crate of a later group."""
    levels = {crate: number for number, crates in enumerate(groups.values()) for crate in crates.split()}
    names = [crate for crates in groups.values() for crate in crates.split()]
    for crate in sorted({*uses, *names}):
        if crate not in uses or names.count(crate) != 1:
            yield f"tests/crates.py: GROUPS has {crate} {names.count(crate)} times; a crate is in one group"
    for crate, named in uses.items():
        for other in sorted(it for it in named if levels.get(it, 0) > levels.get(crate, 0)):
            yield f"{crate} names {other}, which is in a later group: move what it needs, or change GROUPS in tests/crates.py"


def rows_of(page):
    """Returns the crates of the table in tests/README.md, each with its files: (crate, module)."""
    rows = {}
    for crate, cell in re.findall(r"^\| `(fx_\w+)` \| (`fx_\w+`: .*) \|$", page, re.M):
        lists = re.findall(r"`(fx_\w+)`: ((?:`\w+`(?:, )?)+)", cell)
        rows[crate] = [(where, name) for where, names in lists for name in re.findall(r"`(\w+)`", names)]
    return rows


def source(crate, module):
    path = f"{TOP}/crates/{crate}/src/{module}.rt"
    if not os.path.exists(path):
        return None
    with open(path, encoding="utf-8") as file:
        return file.read()


def wrong_rows(uses, groups, page):
    """Yields what is wrong with the table of tests in tests/README.md."""
    rows = rows_of(page)
    tests = groups["tests"].split()
    for crate in sorted(set(uses) - {"once", "once_check", *tests} - set(rows)):
        yield f"tests/README.md: the table has no row of {crate}"
    for crate, files in rows.items():
        texts = [source(*it) for it in files]
        for (where, name), text in zip(files, texts):
            if text is None:
                yield f"tests/README.md: {crate}: there is no file crates/{where}/src/{name}.rt"
        near = {crate, *(it for it, named in uses.items() if crate in named)}
        if crate not in tests and not any(f"{it}::" in text for text in texts if text for it in near):
            yield f"tests/README.md: none of the files of {crate} names it"
    listed_files = {it for files in rows.values() for it in files}
    for crate in tests:
        for path in sorted(glob.glob(f"{TOP}/crates/{crate}/src/*.rt")):
            name = os.path.splitext(os.path.basename(path))[0]
            if "#[test]" in source(crate, name) and (crate, name) not in listed_files:
                yield f"tests/README.md: the table does not name crates/{crate}/src/{name}.rt, which has tests"


def main(arguments):
    parser = argparse.ArgumentParser(usage="crates.py [--write]")
    parser.add_argument("--write", action="store_true")
    found, path = uses(), f"{TOP}/crates.txt"
    text = listed(found, GROUPS)
    if parser.parse_args(arguments).write:
        with open(path, "w", encoding="utf-8") as file:
            file.write(text)
    with open(path, encoding="utf-8") as file:
        there = file.read()
    with open(f"{TOP}/tests/README.md", encoding="utf-8") as file:
        page = file.read()
    faults = [*wrong_groups(found, GROUPS), *wrong_rows(found, GROUPS, page)]
    due, found_there = set(text.split("\n")), set(there.split("\n"))
    faults += [f"crates.txt: {'missing' if line in due else 'wrong'}: {line}" for line in sorted(due ^ found_there)]
    if text != there:
        faults.append("crates.txt is not as the files and groups say: run tests/crates.py --write")
    print("\n".join(faults) if faults else f"crates.txt: {len(found)} crates in {len(GROUPS)} groups, and their tests, as the files say")
    return 1 if faults else 0


if __name__ == "__main__":
    sys.exit(main(sys.argv[1:]))
