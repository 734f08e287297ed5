"""The text of a running configuration as sections."""
from __future__ import annotations

import re
from typing import Iterator

from once_tools.readers.trees import Node, indented
from once_tools.source import Source

BANNER = re.compile(r"^banner\s+\S+\s+(\^C|\S)(.*)$")


def banner_lines(source: Source) -> set[int]:
    """Returns the numbers of the lines that are text of banners; a banner that does not end has no lines."""
    found: set[int] = set()
    within: set[int] = set()
    end = ""
    for number, line in enumerate(source.lines(), 1):
        if end:
            within.add(number)
            if end in line:
                found, within, end = found | within, set(), ""
            continue
        match = BANNER.match(line)
        if match and match[1] not in match[2]:
            end = match[1]
    return found


def sections(sources: list[Source]) -> list[Node]:
    """Returns the statements at the left margin of all texts, each with its own below it."""
    found = []
    for source in sources:
        skipped = banner_lines(source)
        found += [node for node in indented(source, ("!",)).children if node.place.line not in skipped]
    return found


def named(nodes: list[Node], *words: str) -> Iterator[tuple[str, Node]]:
    """Yields the sections that begin with these words, each with the rest of its words as a name."""
    for node in nodes:
        if node.starts(*words) and len(node.words) > len(words):
            yield " ".join(node.words[len(words):]), node


def merged(nodes: list[Node], *words: str) -> dict[str, Node]:
    """Returns the sections that begin with these words by their names. Sections of one name are one, and lines below them
    are theirs, however far they are indented."""
    found: dict[str, Node] = {}
    for name, node in named(nodes, *words):
        first = found.setdefault(name, Node(node.words, node.place, node.depth))
        first.children += [line for child in node.children for line in child.walk()]
    return found


def expanded(text: str) -> list[str]:
    """Returns the numbers of a list such as `10-12,20`, at most 4,094 of them."""
    found: list[str] = []
    for part in text.split(","):
        low, hyphen, high = part.strip().partition("-")
        if hyphen and low.strip().isdigit() and high.strip().isdigit():
            found += [str(one) for one in range(int(low), min(int(high), int(low) + 4094) + 1)]
        elif part.strip():
            found.append(part.strip())
    return found
