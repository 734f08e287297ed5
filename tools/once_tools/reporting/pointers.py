"""The lines of JSON texts that pointers (RFC 6901) lead to."""
from __future__ import annotations

import json
import re
from json.decoder import scanstring  # type: ignore[attr-defined]

BLANK = re.compile(r"[ \t\r\n]*")
DECODER = json.JSONDecoder()


def after_blanks(text: str, at: int) -> int:
    """Returns where the next token begins."""
    found = BLANK.match(text, at)
    return found.end() if found else at


def member_at(text: str, at: int, name: str) -> tuple[int, int] | None:
    """Returns where the last member of this name, and its value, begin in the object that begins here."""
    found = None
    at = after_blanks(text, at + 1)
    while text[at] == '"':
        began = at
        key, at = scanstring(text, at + 1, True)
        value = after_blanks(text, after_blanks(text, at) + 1)
        if key == name:
            found = began, value
        at = after_blanks(text, DECODER.raw_decode(text, value)[1])
        at = after_blanks(text, at + 1) if text[at] == "," else at
    return found


def entry_at(text: str, at: int, number: int) -> tuple[int, int] | None:
    """Returns where an entry, by its number from 0, begins in the list that begins here."""
    at = after_blanks(text, at + 1)
    for _ in range(number):
        if text[at] == "]":
            return None
        at = after_blanks(text, DECODER.raw_decode(text, at)[1])
        at = after_blanks(text, at + 1) if text[at] == "," else at
    return None if text[at] == "]" else (at, at)


def line_at(text: str, pointer: str) -> int:
    """Returns the line that a pointer leads to; of a part that is not there, the line of what should have it. 0 if it is no JSON text."""
    began = value = after_blanks(text, 0)
    try:
        for part in pointer.split("/")[1:]:
            part = part.replace("~1", "/").replace("~0", "~")
            found = member_at(text, value, part) if text[value] == "{" else entry_at(text, value, int(part)) if part.isdigit() else None
            if found is None:
                break
            began, value = found
    except (IndexError, ValueError, RecursionError):
        return 0
    return text.count("\n", 0, began) + 1 if text else 0
