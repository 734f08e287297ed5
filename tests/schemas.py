#!/usr/bin/env python3
"""schemas.py PROGRAM: compares the schemas of docs/schemas with what the program accepts and refuses.

Of each network and traffic document of tests/rows and examples, and of the cases of tests/schema_cases: what the program accepts the
schema accepts. What the program refuses the schema refuses, if the table of docs/schemas/README.md says that it sees the number; of
a case it refuses what the case says, and the cases check the table: only such as are seen, none, or both if a number is seen in
part. Rows show by what they expect which documents are accepted; `lint` is asked about the others and about the cases.

It needs Python's `jsonschema`, version 4 or later; without it nothing is compared. Prints a line for each fault, and last
`N passed, M failed`. The exit status is 1 if something failed.
"""
import concurrent.futures
import glob
import json
import os
import re
import sys
import tempfile

from schema_cases import reading, verdicts
from verdict import not_run, report_each

TOP = os.path.dirname(os.path.dirname(os.path.abspath(__file__)))
SCHEMAS = os.path.join(TOP, "docs", "schemas")


def validators(validator):
    """A validator of each kind of document, by its name; the schemas themselves are held against their draft."""
    made = {}
    for kind in ("network", "traffic"):
        with open(os.path.join(SCHEMAS, kind + ".schema.json"), encoding="utf-8") as file:
            schema = json.load(file)
        validator.check_schema(schema)
        made[kind] = validator(schema)
    return made


def table():
    """Which numbers a schema sees: yes, no or in part."""
    with open(os.path.join(SCHEMAS, "README.md"), encoding="utf-8") as file:
        return {int(row[0]): row[1] for row in re.findall(r"^\| (\d+) \| ([a-z ]+) \|", file.read(), re.M)}


def below_400():
    """The numbers of refusals that documents have."""
    with open(os.path.join(TOP, "docs", "REFUSALS.md"), encoding="utf-8") as file:
        return {int(number) for number in re.findall(r"^### ([123]\d\d) ", file.read(), re.M)}


def first_fault(validator, document):
    """The place of what a schema refuses and why, or nothing."""
    for fault in validator.iter_errors(document):
        return "%s: %s" % (fault.json_path, fault.message[:120])
    return None


def judged(validator, said, octets, seen):
    """What is wrong with what the schema says of a document of which the program says this."""
    try:
        document = json.loads(octets)
    except (ValueError, UnicodeDecodeError):
        return None
    fault = first_fault(validator, document)
    if said == verdicts.TAKEN and fault:
        return "is taken by the program and refused by the schema at " + fault
    if isinstance(said, int) and seen.get(said) == "yes" and not fault:
        return "is refused with %d and taken by the schema" % said
    return None


def stored(program):
    """The documents of rows and examples, each once: its folder, kind and octets, and what the program says of it."""
    known = set()
    folders = sorted(glob.glob(TOP + "/tests/rows/*/")) + sorted(glob.glob(TOP + "/examples/*/"))
    with tempfile.TemporaryDirectory() as made:
        for folder in folders:
            is_row = folder.startswith(TOP + "/tests/")
            network, traffic = verdicts.documents_of(folder) if is_row else (
                verdicts.octets_of(folder, "network.json"), verdicts.octets_of(folder, "traffic.json"))
            if not network or (network, traffic) in known:
                continue
            known.add((network, traffic))
            said = verdicts.of_row(folder) if is_row else (verdicts.TAKEN, verdicts.TAKEN)
            if verdicts.ASK in said:
                said = verdicts.asked(program, made, network, traffic)
            for kind, octets, word in zip(("network", "traffic"), (network, traffic), said):
                if octets and word != verdicts.UNREAD:
                    yield os.path.relpath(folder, TOP), kind, octets, word


def faults_of_stored(program, schemas, seen):
    """Of each document of rows and examples what is wrong, or nothing."""
    for folder, kind, octets, said in stored(program):
        fault = judged(schemas[kind], said, octets, seen)
        yield fault and "%s/%s.json %s" % (folder, kind, fault)


def answer(program, kind, document):
    """What the program says of a case's document."""
    texts = {"network": reading.document("network"), kind: document}
    with tempfile.TemporaryDirectory() as folder:
        files = []
        for name, text in texts.items():
            files.append(os.path.join(folder, name))
            with open(files[-1], "w", encoding="utf-8") as file:
                json.dump(text, file)
        return verdicts.lint(program, *files)


def faults_of_cases(program, schemas, counts):
    """Of each case what is wrong, or nothing; counts whether each number is seen."""
    cases = list(reading.cases())
    with concurrent.futures.ThreadPoolExecutor(4) as pool:
        answers = pool.map(lambda case: answer(program, *case[3:]), cases)
        for (line, wanted, seen, kind, document), said in zip(cases, answers):
            fault = first_fault(schemas[kind], document)
            if wanted != verdicts.TAKEN:
                counts.setdefault(int(wanted), set()).add(seen)
            if str(said) != wanted:
                yield "%s: the program says %s" % (line, said)
            elif bool(fault) != seen:
                yield "%s: the schema %s" % (line, "refuses it at " + fault if fault else "takes it")
            else:
                yield None


def faults_of_table(seen, counts):
    """Of each number what is wrong with its row of the table, or nothing."""
    wanted = {"yes": {True}, "no": {False}, "in part": {True, False}}
    for number in sorted(below_400() | set(seen)):
        if number not in below_400():
            yield "docs/schemas/README.md: %d is no refusal of a document" % number
        elif number not in seen:
            yield "docs/schemas/README.md: no row for %d" % number
        elif number != 101 and counts.get(number) != wanted.get(seen[number]):
            yield "docs/schemas/README.md: %d is seen: %s; the cases say otherwise" % (number, seen[number])
        else:
            yield None


def faults_of_shared(schemas):
    """Of each definition that both schemas have, what is wrong, or nothing: it says the same in both."""
    network, traffic = (schemas[kind].schema["$defs"] for kind in ("network", "traffic"))
    for name in sorted(network.keys() & traffic.keys()):
        yield None if network[name] == traffic[name] else "docs/schemas: %s differs between the two schemas" % name


def main(program):
    try:
        from jsonschema import Draft202012Validator
    except ImportError:
        not_run("docs/schemas", "python3 has no jsonschema of version 4 or later (Debian's package python3-jsonschema)")
        print("0 passed, 0 failed")
        return 0
    schemas, seen, counts = validators(Draft202012Validator), table(), {}
    found = list(faults_of_stored(program, schemas, seen))
    found += faults_of_cases(program, schemas, counts)
    found += faults_of_table(seen, counts)
    found += faults_of_shared(schemas)
    return report_each(found)


if __name__ == "__main__":
    if len(sys.argv) != 2:
        sys.exit(__doc__)
    sys.exit(main(os.path.abspath(sys.argv[1])))
