"""Indented configurations as statements that have their whole path."""
from __future__ import annotations

from typing import Callable, Iterator

from once_tools.readers.trees import Node, Statement, Words, indented, plain_words
from once_tools.source import Source


def statements(source: Source, comments: tuple[str, ...] = ("!", "#"),
               words_of: Callable[[str], Words] = plain_words) -> list[Statement]:
    """Returns each line with the words of the lines above that it is indented below."""
    return list(_below(indented(source, comments, words_of), ()))


def _below(root: Node, path: Words) -> Iterator[Statement]:
    stack = [(node, path) for node in reversed(root.children)]
    while stack:
        node, above = stack.pop()
        words = above + node.words
        yield Statement(words, node.place)
        stack.extend((child, words) for child in reversed(node.children))
