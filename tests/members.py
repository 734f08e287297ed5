#!/usr/bin/env python3
"""members.py PROGRAM: checks that `lint --explain` names, for each object, the members that the schemas of docs/schemas allow.

Each object of the documents of `schema_cases` gets one more member, with a name that is near none. After `refused 102` the program must name
those members that the object's schema has and the object doesn't, except those that are refused with a number of their own, whose
schema is `"not": {}`, and those of a choice (`oneOf`) of which the object has another.

Prints a line for each object with other names, and last `N passed, M failed`. The exit status is 1 if one failed.
"""
import copy
import json
import os
import sys
import tempfile

from program import run
from verdict import report_named

TOP = os.path.dirname(os.path.dirname(os.path.abspath(__file__)))
STRANGE = "zzzzzzzz"
BEGIN = 'member "%s" is not allowed there; allowed, and not there yet: ' % STRANGE


def document(*names):
    with open(os.path.join(TOP, *names), encoding="utf-8") as file:
        return json.load(file)


def behind(schema, whole):
    """A schema, and those to which it points and of which it is made."""
    yield schema
    if "$ref" in schema:
        yield from behind(whole["$defs"][schema["$ref"].rpartition("/")[2]], whole)


def part(schema, whole, step):
    """The schema of an object's member, or of a list's items."""
    for one in behind(schema, whole):
        found = one.get("items") if isinstance(step, int) else one.get("properties", {}).get(step)
        if found is not None:
            yield from behind(found, whole)


def names_of(schemas, whole):
    """The members that an object of these schemas may have, in their order."""
    for schema in schemas:
        if "propertyNames" in schema:
            names = schema["propertyNames"]
            names = names.get("enum") or [one["const"] for one in names["anyOf"] if "const" in one]
            return [n for n in names if not any(s.get("not") == {} for s in part(schema, whole, n))]
    return None


def choice_of(schemas):
    """The members of which an object of these schemas has one alone."""
    return [name for schema in schemas for one in schema.get("oneOf", ()) for name in one.get("required", ())]


def objects(value, schemas, whole, place=()):
    """The objects of a document, each with its place, the members that it may have, and those of which it has one."""
    if isinstance(value, dict):
        yield place, names_of(schemas, whole), choice_of(schemas)
    steps = value.items() if isinstance(value, dict) else enumerate(value) if isinstance(value, list) else ()
    for step, below in steps:
        found = [one for schema in schemas for one in part(schema, whole, step)]
        if found:
            yield from objects(below, found, whole, place + (step,))


def at(value, place):
    for step in place:
        value = value[step]
    return value


def allowed(program, folder, documents):
    """The members that the program says are allowed, and not there yet, beside the strange one."""
    files = []
    for name, value in documents:
        files.append(os.path.join(folder, name))
        with open(files[-1], "w", encoding="utf-8") as file:
            json.dump(value, file)
    ran = run([program, "lint", *files, "--explain"], text=True)
    for line in ran.stdout.splitlines():
        if line.startswith(BEGIN):
            return [name for name in line[len(BEGIN) :].split(", ") if name != "none"]
    return ran.stdout[:300]


def cases(program, folder, kind):
    """Each object of one of the documents, with its faults."""
    network = document("tests", "schema_cases", "network.json")
    whole = document("docs", "schemas", kind + ".schema.json")
    value = document("tests", "schema_cases", kind + ".json")
    for place, names, choice in objects(value, list(behind(whole, whole)), whole):
        if names is None:
            continue
        changed = copy.deepcopy(value)
        at(changed, place)[STRANGE] = 0
        others = [("network.json", network)] if kind == "traffic" else []
        found = allowed(program, folder, others + [(kind + ".json", changed)])
        there = at(value, place)
        made = any(name in there for name in choice)
        wanted = [name for name in names if name not in there and not (made and name in choice)]
        where = "/".join(map(str, ("",) + place))
        wrong = not isinstance(found, list) or sorted(found) != sorted(wanted)
        yield "%s %s" % (kind, where), ["names %r instead of %r" % (found, wanted)] if wrong else []


if __name__ == "__main__":
    if len(sys.argv) != 2:
        sys.exit(__doc__)
    with tempfile.TemporaryDirectory() as folder:
        program = os.path.abspath(sys.argv[1])
        sys.exit(report_named(case for kind in ("network", "traffic") for case in cases(program, folder, kind)))
