"""Texts of configurations as trees, flat statements or settings, each with the place that it was read from."""
from __future__ import annotations

import re
from dataclasses import dataclass, field
from typing import Callable, Iterator

from once_tools.model import Place
from once_tools.source import Source

Words = tuple[str, ...]


@dataclass
class Node:
    """A line of an indented configuration, with the lines that are indented below it."""

    words: Words
    place: Place
    depth: int = 0
    children: list["Node"] = field(default_factory=list)

    @property
    def text(self) -> str:
        """Returns the words with single spaces between them."""
        return " ".join(self.words)

    def starts(self, *words: str) -> bool:
        """Returns whether the line begins with these words."""
        return self.words[: len(words)] == words

    def walk(self) -> Iterator["Node"]:
        """Yields the node and all below it, in the order of the text."""
        stack = [self]
        while stack:
            node = stack.pop()
            yield node
            stack.extend(reversed(node.children))


# What a terminal leaves in a text that was copied from it.
# Spaces between backspaces erase the mark; those after them are the line's own indentation.
PAGER = re.compile(r"^\s*<?-+ ?\(?more\)?[^-\x08\r]*-*>? ?(?:[\x08\r]+(?: +[\x08\r]+)?)?", re.IGNORECASE)


def numbered(source: Source) -> Iterator[tuple[int, str]]:
    """Yields each line with its 1-based number, without carriage returns and the marks of a pager."""
    for number, line in enumerate(source.lines(), 1):
        yield number, PAGER.sub("", line, count=1).replace("\r", "").replace("\x08", "")


def plain_words(line: str) -> Words:
    """Returns the words of a line."""
    return tuple(line.split())


def indented(source: Source, comments: tuple[str, ...] = ("!", "#"),
             words_of: Callable[[str], Words] = plain_words) -> Node:
    """Returns the tree of a text in which indentation makes the levels; the root has no words and line 0."""
    root = Node((), Place(source.name), -1)
    stack = [root]
    for number, line in numbered(source):
        stripped = line.strip()
        if not stripped or stripped.startswith(comments):
            continue
        depth = len(line) - len(line.lstrip())
        node = Node(words_of(stripped), Place(source.name, number, stripped), depth)
        while stack[-1].depth >= depth:
            stack.pop()
        stack[-1].children.append(node)
        stack.append(node)
    return root


@dataclass(frozen=True)
class Statement:
    """A statement with its whole path, as `set` lines have it. `inactive` says that it is deactivated."""

    words: Words
    place: Place
    inactive: bool = False


TOKEN = re.compile(r'"(?:[^"\\]|\\.)*"|/\*.*?\*/|[{};\[\]]|[^\s{};\[\]"]+|"')


def tokens(line: str) -> list[str]:
    """Returns the words of a line of braces; quotation marks are taken off, and comments are left out."""
    found = []
    for token in TOKEN.findall(line):
        if token.startswith("/*"):
            continue
        if token.startswith("#"):
            break
        found.append(token)
    return found


def unquoted(token: str) -> str:
    """Returns a word without the quotation marks around it."""
    for mark in ('"', "'"):
        if len(token) > 1 and token[0] == mark and token[-1] == mark:
            return token[1:-1]
    return token


def uncommented(source: Source) -> Iterator[tuple[int, str]]:
    """Yields each line with its number; comments between `/*` and `*/` are left out, also over several lines."""
    within = False
    for number, line in numbered(source):
        kept = ""
        while line:
            if within:
                _, end, line = line.partition("*/")
                within = not end
            else:
                before, start, line = line.partition("/*")
                kept, within = kept + before, bool(start)
        yield number, kept


class _Braces:
    """Reads tokens of a text with braces, statement by statement."""

    def __init__(self) -> None:
        self.path: list[tuple[Words, bool]] = []
        self.words: list[str] = []
        self.place: Place | None = None
        self.choices: list[str] | None = None
        self.found: list[Statement] = []

    def take(self, token: str, place: Place) -> None:
        if token == "{":
            self.open()
        elif token == "}":
            self.end()
            if self.path:
                self.path.pop()
        elif token == ";":
            self.end()
        elif token == "[":
            self.choices = []
        elif token == "]":
            pass
        elif self.choices is not None:
            self.choices.append(unquoted(token))
        else:
            self.place = self.place or place
            self.words.append(unquoted(token))

    def head(self) -> tuple[Words, bool]:
        inactive = bool(self.words) and self.words[0] == "inactive:"
        return tuple(word for word in self.words if word not in ("inactive:", "protect:")), inactive

    def open(self) -> None:
        self.path.append(self.head())
        self.words, self.place, self.choices = [], None, None

    def end(self) -> None:
        words, inactive = self.head()
        if words and self.place:
            before = tuple(word for part, _ in self.path for word in part)
            off = inactive or any(part for _, part in self.path)
            tails = [words] if self.choices is None else [(*words, choice) for choice in self.choices]
            self.found += [Statement(before + tail, self.place, off) for tail in tails]
        self.words, self.place, self.choices = [], None, None


def braces(source: Source) -> list[Statement]:
    """Returns the statements of a text with braces; a list `[ a b ]` gives a statement for each entry."""
    reader = _Braces()
    for number, line in uncommented(source):
        place = Place(source.name, number, line.strip())
        for token in tokens(line):
            reader.take(token, place)
    reader.end()
    return reader.found


def set_lines(source: Source) -> list[Statement]:
    """Returns the statements of `set` lines, without those that `delete` removes; `deactivate` makes them inactive."""
    found: list[Statement] = []
    off: dict[Words, Place] = {}
    for number, line in numbered(source):
        words = [unquoted(token) for token in tokens(line) if token not in "[];"]
        place = Place(source.name, number, line.strip())
        path = tuple(words[1:])
        if words[:1] == ["set"] and path:
            found += [Statement(one, place) for one in _spread(line, path)]
        elif words[:1] == ["deactivate"]:
            off[path] = place
        elif words[:1] == ["activate"]:
            off.pop(path, None)
        elif words[:1] == ["delete"]:
            found = [one for one in found if one.words[: len(path)] != path]
    return [_switched(one, off) for one in found]


def _spread(line: str, path: Words) -> list[Words]:
    """Returns a path for each entry of a list in brackets at the end of the line."""
    before, bracket, inside = line.partition("[")
    if not bracket:
        return [path]
    head = tuple(unquoted(token) for token in tokens(before))[1:]
    return [(*head, unquoted(token)) for token in tokens(inside) if token not in "[];"]


def _switched(one: Statement, off: dict[Words, Place]) -> Statement:
    """Returns the statement, made inactive if it is at or below a deactivated path; its place is then that line."""
    for length in {len(path) for path in off}:
        place = off.get(one.words[:length])
        if place is not None:
            return Statement(one.words, place, True)
    return one


@dataclass(frozen=True)
class Setting:
    """A line `KEY: VALUE` or `KEY[PLUGIN]: VALUE`."""

    key: str
    value: str
    place: Place
    plugin: str = ""


SETTING = re.compile(r"^([^\s\[\]:]+)(?:\[([^\]]*)\])?\s*:\s*(.*)$")


def settings(source: Source, comments: tuple[str, ...] = ("!", "#")) -> tuple[list[Setting], list[Place]]:
    """Returns the settings of a text, and the places of lines that are none."""
    found, others = [], []
    for number, line in numbered(source):
        stripped = line.strip()
        if not stripped or stripped.startswith(comments):
            continue
        place = Place(source.name, number, stripped)
        match = SETTING.match(stripped)
        if match is None:
            others.append(place)
        else:
            found.append(Setting(match[1], match[3].strip(), place, match[2] or ""))
    return found, others


QUOTED = re.compile(r'"((?:[^"\\]|\\.)*)"|\'([^\']*)\'|(\S+)')


def quoted_words(line: str) -> Words:
    """Returns the words of a line; what is between quotation marks is one word."""
    return tuple(next(part for part in found if part is not None) for found in
                 ([one[1], one[2], one[3]] for one in QUOTED.finditer(line)))


def braced_lines(source: Source, comments: tuple[str, ...] = ("#", "//")) -> list[Statement]:
    """Returns the statements of a text with braces in which each line is a statement, as VyOS' config.boot and SR OS write it.

    A section without statements in it is a statement of its own.
    """
    found: list[Statement] = []
    path: list[tuple[Words, Place, int]] = []
    for number, line in uncommented(source):
        stripped = line.strip()
        if not stripped or stripped.startswith(comments):
            continue
        place = Place(source.name, number, stripped)
        above = tuple(word for words, _, _ in path for word in words)
        if stripped == "}":
            if path:
                words, at, count = path.pop()
                found += [Statement(above, at)] if len(found) == count else []
        elif stripped.endswith("{"):
            path.append((quoted_words(stripped[:-1].strip()), place, len(found)))
        else:
            found.append(Statement(above + quoted_words(stripped), place))
    return found
