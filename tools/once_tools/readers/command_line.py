"""Command lines of daemons: as they are typed, in units of systemd, or with variables from a file of settings."""
from __future__ import annotations

import re
import shlex
from dataclasses import dataclass
from typing import Iterator, Sequence

from once_tools.model import Place, Unusable
from once_tools.readers.trees import numbered
from once_tools.source import Source

VARIABLE = re.compile(r"\$\{?([A-Za-z_][A-Za-z0-9_]*)\}?")
ASSIGNMENT = re.compile(r"(?:Environment=)?\"?([A-Za-z_][A-Za-z0-9_]*)=(.*?)\s*$")

LONGEST = 100_000


@dataclass(frozen=True)
class Command:
    """A command line: its arguments without the program, and the place that it begins at."""

    words: list[str]
    place: Place


def logical_lines(source: Source) -> Iterator[tuple[int, str]]:
    """Yields lines with their numbers, without comments; a line that ends in a backslash goes on in the next one."""
    first, text = 0, ""
    for number, line in numbered(source):
        stripped = line.strip()
        if not text and (not stripped or stripped[0] in "#;"):
            continue
        first, text = first or number, text + line
        if text.endswith("\\"):
            text = text[:-1] + " "
            continue
        yield first, text.strip()
        first, text = 0, ""
    if text.strip():
        yield first, text.strip()


def variables_of(sources: Sequence[Source]) -> dict[str, str]:
    """Returns the assignments `NAME='TEXT'` of all texts."""
    found: dict[str, str] = {}
    for source in sources:
        for _, line in logical_lines(source):
            match = ASSIGNMENT.match(line)
            if match and len(line) <= LONGEST and not line.startswith("Exec"):
                try:
                    found[match[1]] = " ".join(shlex.split(match[2].strip('"') if match[2].count('"') == 1
                                                           else match[2]))
                except ValueError:
                    continue
    return found


def commands_of(sources: Sequence[Source], program: str) -> list[Command]:
    """Returns the command lines of a program, in order; `ExecStart=` without a command discards those before it."""
    found: list[Command] = []
    variables = variables_of(sources)
    for source in sources:
        for number, line in logical_lines(source):
            place = Place(source.name, number, line)
            if re.fullmatch(r"ExecStart=\s*", line):
                found = [one for one in found if one.place.file != source.name]
            line = re.sub(r"^ExecStart=[-@:+!]*", "", line)
            if re.match(rf"(\S*[/#$ ])?{program}(\s|$)", line):
                found.append(Command(_words(line, variables, place)[1:], place))
    return found


def _words(line: str, variables: dict[str, str], place: Place) -> list[str]:
    """Returns the words of a command line with variables replaced. Raises Unusable."""
    def value(match: re.Match[str]) -> str:
        if match[1] not in variables:
            raise Unusable(place, f"the variable {match[1]} is not set in the files given", "add the file that sets it")
        return variables[match[1]]

    if len(line) > LONGEST:
        raise Unusable(place, f"has more than {LONGEST} characters", "give a command line")
    try:
        words = shlex.split(VARIABLE.sub(value, line), comments=False)
    except ValueError as error:
        raise Unusable(place, f"the command line cannot be split into words ({error})",
                       "close each quotation mark") from None
    program = next((index for index, word in enumerate(words) if not word.startswith("-") and "=" not in word), 0)
    return words[program:]
