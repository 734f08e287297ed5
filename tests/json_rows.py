#!/usr/bin/env python3
"""Runs the worked rows with `--format json`, before their other arguments and after them.

usage: json_rows.py PROGRAM [ROW..]

Standard output must be one JSON text in a line, an object whose members ascend and which docs/schemas/answer.schema.json accepts. Its
members must agree with what the row prints without the option (its file `stdout`, or what the program prints), with its exit status,
its arguments, what `--explain` and `once explain` print, and its traffic. Arguments that don't parse, and those that ask for help, are
answered as text. Links, refutations and what can't be written are as in rows.py. Some commands over an example follow, whose answers no
row has.

Of all rows together, each command and each answer must occur, and each number that a row prints. A remark lists the other numbers of
docs/REFUSALS.md. It needs Python's `jsonschema`, version 4 or later; without it nothing is run. Prints a line for each fault, and last
`N passed, M failed`. The exit status is 1 if something failed.
"""
import argparse
import contextlib
import json
import os
import re
import sys
from dataclasses import dataclass
from typing import Any, Dict, Iterator, List, Optional, Sequence, Set, Tuple

from json_answer import Expected, Object, differences, object_in, refusal_in
from program import run
from rows import ROWS, cuts_of, faults_of_links, folder_of, octets_of, output_of, unconfirmed, ways, words_of
from schemas import SCHEMAS, TOP, first_fault
from verdict import not_run, report_named

OPTION = ("--format", "json")
EXAMPLE = os.path.join(TOP, "examples", "one-path-metered-twice")
# Commands over the example, which is read as a row: no row has their answers.
OVER_EXAMPLE = (("draw", "network.json"), ("draw", "network.json", "traffic.json"), ("explain", "101"), ("explain", "901"), ("explain", "all"))
# Arguments that ask for help, and the exit status of those that don't parse.
HELP, UNPARSED = {"help", "--help", "-h", "--version", "-V"}, 6
# The answer that no row has: memory does not run out.
NOT_IN_ROWS = {"memory"}


@dataclass(frozen=True)
class Case:
    """A row's arguments, exit status and text, if it has one; of a file that is cut also the length."""

    row: str
    words: Sequence[str]
    status: int
    text: Optional[bytes]
    length: Optional[int] = None

    def is_text(self) -> bool:
        """Returns whether the answer is text with the option too."""
        return self.status == UNPARSED or not HELP.isdisjoint(self.words)

    @contextlib.contextmanager
    def folder(self) -> Iterator[str]:
        """The folder in which the program runs."""
        with folder_of(self.row) as folder:
            if self.length is not None:
                os.truncate(os.path.join(folder, octets_of(folder, "cuts").decode().strip()), self.length)
            yield folder

    def named(self, fault: str) -> str:
        return fault if self.length is None else "cut to %d octets: %s" % (self.length, fault)


def cases_of(row: str) -> Iterator[Case]:
    """Yields a row, or one for each length to which its file is cut."""
    words = words_of(row)
    if not os.path.exists(os.path.join(row, "cuts")):
        yield Case(row, words, int(octets_of(row, "status")), octets_of(row, "stdout", None))
    for length, status, text in cuts_of(row):
        yield Case(row, words, status, text, length)


def traffic_in(row: str, words: Sequence[str]) -> Optional[Object]:
    """Returns the traffic that a row's arguments name, if it is a JSON text in the row's folder."""
    if len(words) < 3 or words[2] not in os.listdir(row):
        return None
    try:
        return json.loads(octets_of(row, words[2]))
    except ValueError:
        return None


class Trial:
    """The program, the schema of its objects, and what the objects had so far."""

    def __init__(self, program: str, validator: Any) -> None:
        self.program, self.validator = program, validator
        self.reasons: Dict[Optional[int], str] = {None: ""}
        self.seen: Dict[str, Set[Any]] = {"command": set(), "answer": set(), "number": set()}
        self.printed: Set[int] = set()

    def printed_with(self, case: Case, *options: str) -> bytes:
        """Returns what a case prints with these options."""
        with case.folder() as folder:
            return run([self.program, *options, *case.words], folder, octets_of(case.row, "stdin")).stdout

    def reason(self, number: Optional[int]) -> str:
        """Returns what `once explain` says of a number, after the number itself."""
        if number not in self.reasons:
            said = run([self.program, "explain", str(number)]).stdout.decode()
            self.reasons[number] = said.removeprefix("%s\n" % number)
        return self.reasons[number]

    def expected(self, case: Case, text: bytes) -> Expected:
        """Returns what the object of a case must agree with that prints this text without the option."""
        given, output = octets_of(case.row, "stdin").decode(errors="replace"), text.decode(errors="replace")
        explained = self.printed_with(case, "--explain").decode(errors="replace")
        number = refusal_in(output)[0]
        self.printed |= {number} if number else set()
        return Expected(case.words, given, case.status, output, explained, self.reason(number), traffic_in(case.row, case.words))

    def faults(self, case: Case) -> Iterator[str]:
        """Yields what is wrong with a case."""
        text = self.printed_with(case) if case.text is None else case.text
        expected = None if case.is_text() or octets_of(case.row, "output") else self.expected(case, text)
        for way in ways(case.words, OPTION):
            with case.folder() as folder, output_of(case.row) as to:
                ran = run([self.program, *way], folder, octets_of(case.row, "stdin"), stdout=to)
                yield from faults_of_links(folder)
            if ran.returncode != case.status:
                yield "status %d instead of %d" % (ran.returncode, case.status)
            if ran.stderr:
                yield "printed %r on standard error" % ran.stderr[:200]
            if expected:
                yield from self.faults_of_line(case, expected, ran.stdout)
            elif case.is_text() and ran.stdout is not None and ran.stdout != text:
                yield "printed %r instead of %r" % (ran.stdout[:200], text[:200])

    def faults_of_line(self, case: Case, expected: Expected, line: bytes) -> Iterator[str]:
        """Yields what is wrong with what was printed as an object."""
        try:
            answer = object_in(line)
        except ValueError as error:
            yield "printed %r, which is no object: %s" % (line[:200], error)
            return
        fault = first_fault(self.validator, answer)
        if fault:
            yield "the schema refuses the object at %s" % fault
            return
        if answer["answer"] in NOT_IN_ROWS:
            yield "printed %r" % line[:200]
            return
        for member, seen in self.seen.items():
            seen.add(answer[member])
        yield from differences(answer, expected)
        steps = octets_of(case.row, "refutes", None)
        if steps is not None:
            yield from unconfirmed(self.program, case.row, case.words[1:], answer["output"].encode(), steps.decode().strip())

    def faults_of_row(self, row: str) -> List[str]:
        return [case.named(fault) for case in cases_of(row) for fault in self.faults(case)]

    def faults_of_example(self, words: Sequence[str]) -> List[str]:
        return list(self.faults(Case(EXAMPLE, words, 0, None)))

    def lacking(self) -> Iterator[Tuple[str, List[str]]]:
        """Yields what no object had and some should have, by the member."""
        properties = self.validator.schema["properties"]
        wanted = {
            "command": set(properties["command"]["enum"]), "answer": set(properties["answer"]["enum"]) - NOT_IN_ROWS, "number": self.printed,
        }
        for member, values in wanted.items():
            yield "all rows", ["no object has the %s %r" % (member, it) for it in sorted(values - self.seen[member])]

    def remark(self) -> str:
        """Returns a line on the numbers that no object had."""
        with open(os.path.join(TOP, "docs", "REFUSALS.md"), encoding="utf-8") as file:
            known = set(map(int, re.findall(r"^### (\d+) ", file.read(), re.M)))
        return "remark: no object has these numbers: %s" % (", ".join(map(str, sorted(known - self.seen["number"]))) or "none")


def answer_validator() -> Any:
    """Returns a validator of objects, or None without jsonschema; the schema itself is held against its draft."""
    try:
        from jsonschema import Draft202012Validator
    except ImportError:
        return None
    with open(os.path.join(SCHEMAS, "answer.schema.json"), encoding="utf-8") as file:
        schema = json.load(file)
    Draft202012Validator.check_schema(schema)
    return Draft202012Validator(schema)


def main(arguments: List[str]) -> int:
    parser = argparse.ArgumentParser(usage="json_rows.py PROGRAM [ROW..]")
    parser.add_argument("program")
    parser.add_argument("rows", nargs="*")
    given, validator = parser.parse_args(arguments), answer_validator()
    if validator is None:
        not_run("rows with --format json", "python3 has no jsonschema of version 4 or later (Debian's package python3-jsonschema)")
        return report_named([])
    trial = Trial(os.path.abspath(given.program), validator)
    found = [(name, trial.faults_of_row(os.path.join(ROWS, name))) for name in given.rows or sorted(os.listdir(ROWS))]
    if not given.rows:
        found += [("once " + " ".join(words), trial.faults_of_example(words)) for words in OVER_EXAMPLE]
        found += trial.lacking()
        print(trial.remark())
    return report_named(found)


if __name__ == "__main__":
    sys.exit(main(sys.argv[1:]))
