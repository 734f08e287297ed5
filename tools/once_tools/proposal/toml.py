"""Pieces of a project's text."""
from __future__ import annotations

import json
from typing import Iterable, Sequence

from once_tools.report import printable

WIDTH = 100


def quoted(text: str) -> str:
    """Returns a text as TOML spells it."""
    return json.dumps(text, ensure_ascii=False)


def listed(texts: Iterable[str]) -> str:
    """Returns a list of texts as TOML spells it, on lines of its own if it is long."""
    spelled = [quoted(text) for text in texts]
    line = "[" + ", ".join(spelled) + "]"
    return line if len(line) <= WIDTH else "[\n" + "".join(f"    {one},\n" for one in spelled) + "]"


def one_or_list(texts: Sequence[str]) -> str:
    """Returns a text, or a list if there are several."""
    return quoted(texts[0]) if len(texts) == 1 else listed(texts)


def commented(entries: Iterable[tuple[str, str]]) -> str:
    """Returns a list of texts, each followed by a comment."""
    return "[\n" + "".join(f"    {quoted(text)},{f'  # {printable(comment)}' if comment else ''}\n"
                           for text, comment in entries) + "]"


def comment(text: str) -> list[str]:
    """Returns a sentence as lines of a comment."""
    lines, line = [], "#"
    for word in printable(text).split(" "):
        if len(line) + len(word) >= WIDTH and line != "#":
            lines.append(line)
            line = "#"
        line += f" {word}"
    return [*lines, line]
