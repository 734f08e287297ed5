"""Documents as values that know their file and JSON pointer: all that the cutter and the judge of parts share."""
from __future__ import annotations

import hashlib
import json
from dataclasses import dataclass
from pathlib import Path
from typing import NoReturn

from once_tools.model import Failed, Place, Unusable

FORMATS = "see docs/FORMATS.md"


class Value:
    """A value of a document, with what leads to it. Its functions raise `Unusable`, at its JSON pointer, if it is of another kind."""

    __slots__ = ("value", "above", "key", "file")

    def __init__(self, value: object, file: str, above: Value | None = None, key: str | int = "") -> None:
        self.value, self.file, self.above, self.key = value, file, above, key

    @property
    def pointer(self) -> str:
        """Returns the JSON pointer (RFC 6901)."""
        if self.above is None:
            return ""
        return f"{self.above.pointer}/{str(self.key).replace('~', '~0').replace('/', '~1')}"

    def wrong(self, says: str, todo: str = FORMATS) -> Unusable:
        """Returns the exception that says what is wrong here, and what to do."""
        return Unusable(Place(f"{self.file} {self.pointer}".rstrip()), says, todo)

    def members(self) -> dict[str, object]:
        """Returns an object."""
        if not isinstance(self.value, dict):
            raise self.wrong("is no object")
        return self.value

    def each(self) -> list[tuple[str, Value]]:
        """Returns the members of an object with their names."""
        return [(name, Value(one, self.file, self, name)) for name, one in self.members().items()]

    def optional(self, name: str) -> Value | None:
        """Returns a member of an object, None if it is missing."""
        members = self.members()
        return Value(members[name], self.file, self, name) if name in members else None

    def member(self, name: str) -> Value:
        """Returns a member of an object."""
        found = self.optional(name)
        if found is None:
            raise self.wrong(f"has no member '{name}'", f"add it: {FORMATS}")
        return found

    def entries(self) -> list[Value]:
        """Returns the entries of a list."""
        if not isinstance(self.value, list):
            raise self.wrong("is no list")
        return [Value(one, self.file, self, number) for number, one in enumerate(self.value)]

    def listed(self, name: str) -> list[Value]:
        """Returns the entries of a member, none if it is missing."""
        found = self.optional(name)
        return found.entries() if found else []

    def text(self) -> str:
        """Returns a text."""
        if not isinstance(self.value, str):
            raise self.wrong("is no text")
        return self.value

    def texts(self, name: str) -> tuple[str, ...]:
        """Returns the texts of a member, none if it is missing."""
        return tuple(one.text() for one in self.listed(name))

    def text_at(self, name: str) -> str:
        """Returns a member that is a text."""
        return self.member(name).text()

    def number_at(self, name: str) -> int:
        """Returns a member that is a whole number."""
        found = self.member(name)
        if not isinstance(found.value, int) or isinstance(found.value, bool):
            raise found.wrong("is no whole number")
        return found.value

    def named(self, name: str) -> dict[str, Value]:
        """Returns the entries of a member by their names, which must differ."""
        found: dict[str, Value] = {}
        for one in self.listed(name):
            text = one.text_at("name")
            if text in found:
                raise one.wrong(f"is a second entry named '{text}'", "give it another name")
            found[text] = one
        return found


@dataclass(frozen=True)
class Document:
    """A document that was read: its value, and the SHA-256 digest of its octets."""

    root: Value
    digest: str


def no_constant(text: str) -> NoReturn:
    raise ValueError(f"{text} is no value of JSON")


def read_document(path: Path) -> Document:
    """Returns the document in a file. Raises `Failed` if it cannot be read, `Unusable` if it has no JSON object."""
    try:
        octets = path.read_bytes()
    except OSError as error:
        raise Failed(Place(str(path)), f"cannot be read: {error.strerror}", "name a file that can be read") from error
    try:
        value = json.loads(octets.decode("utf-8"), parse_constant=no_constant)
    except (ValueError, RecursionError) as error:
        raise Unusable(Place(str(path)), f"is no JSON text in UTF-8: {error}", "write it anew, or name another file") from error
    root = Value(value, str(path))
    root.members()
    return Document(root, hashlib.sha256(octets).hexdigest())
