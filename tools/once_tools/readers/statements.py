"""Statements that are matched by patterns of words."""
from __future__ import annotations

from typing import Sequence


def match(words: Sequence[str], pattern: str) -> list[str] | None:
    """Returns the words at the `*` of a pattern that the statement begins with, then the words after it; else None.

    `a|b` in a pattern is either word, which is returned too.
    """
    found: list[str] = []
    parts = pattern.split()
    if len(words) < len(parts):
        return None
    for word, part in zip(words, parts):
        if part == "*":
            found.append(word)
        elif "|" in part and word in part.split("|"):
            found.append(word)
        elif word != part:
            return None
    return found + list(words[len(parts):])
