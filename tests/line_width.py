#!/usr/bin/env python3
"""Checks that the lines of proofs, definitions and comments have at most 120 columns.

usage: line_width.py [--write] [FILE ..]

Without files, all `.rt` and `.antt` files of all crates. Lists of imports (`use`) and lines with a text in quotation marks may be longer.
--write breaks long lines: a line of a proof before an operator or an argument, at the least depth of parentheses that keeps its first part
within the width, with the rest indented by four more columns; a paragraph of a doc comment is filled anew. Run `rt fmt` after it. Prints a
line for each line that is too long, and last `N passed, M failed`, of files.
"""
import argparse
import glob
import re
import sys
import textwrap
from typing import Iterator, List, Optional, Tuple

from verdict import report

WIDTH = 120
FILES = ("crates/*/src/**/*.rt", "crates/*/specs/**/*.antt", "crates/*/proofs/**/*.antt")
OPENING, CLOSING = "([{‹⟨", ")]}›⟩"
# A line may begin with these, and does not end with one; the last is the end of a `let`.
OPERATORS = {"→", "×", "⊎", "∙", "++", "∷", "≡", "↔", "+", "≤", "<", "in"}
# A line neither ends with one of these words, nor begins with one of these tokens.
FRONTS = {"λ", "(λ", "pub", "abbrev", "data", "record", "module", "let", "elim", "case", "rw", "if", "then", "else", "as", "←"}
TAILS = {"=", ":", ".", ","}
# Below this many columns after the indentation a break gains little.
SHORT = 40
DOC = re.compile(r"(\s*//[/!]?) \S")
ITEM = re.compile(r"\s*//[/!]? ([-*|]|\d+\.|```)")


def tokens(line: str) -> Iterator[Tuple[int, int]]:
    """Yields, for each token after a space and outside of texts, where it begins and how deep in parentheses it is."""
    depth, in_text = 0, False
    for at, character in enumerate(line[:-1]):
        if character == '"' and line[at - 1 : at] != "\\":
            in_text = not in_text
        elif in_text:
            continue
        elif character in OPENING:
            depth += 1
        elif character in CLOSING:
            depth -= 1
        elif character == " " and line[at + 1] != " ":
            yield at + 1, depth


def cost_of(line: str, at: int, depth: int, indent: int) -> Optional[Tuple[int, int]]:
    """Returns how bad it is to break the line before the token at this index, or None if it may not be broken there."""
    token, last = line[at:].split(" ", 1)[0], line[: at - 1].rsplit(" ", 1)[-1]
    if token in TAILS or last in FRONTS or last.endswith("λ") or (last in OPERATORS and last != "in"):
        return None
    cost = 4 * depth + (0 if token in OPERATORS or last in ("=", "↦") else -1 if last == "in" else 2)
    return cost + (12 if at < indent + SHORT else 0), -at


def break_of(line: str, first: int) -> Optional[int]:
    """Returns the index of the token after `first` that begins the next line, or None if there is none."""
    indent = len(line) - len(line.lstrip(" "))
    found = [(cost_of(line, at, depth, indent), at) for at, depth in tokens(line) if first < at <= WIDTH + 1]
    allowed = [it for it in found if it[0] is not None]
    return min(allowed)[1] if allowed else None


def proof_line(line: str) -> List[str]:
    """Returns the lines into which a line of a definition or proof is broken."""
    indent = len(line) - len(line.lstrip(" "))
    made, first, more = [], indent, " " * (indent + 4)
    while len(line) > WIDTH:
        at = break_of(line, first)
        if at is None:
            break
        made.append(line[: at - 1].rstrip())
        line, first = more + line[at:], indent + 4
    return [*made, line]


def filled(text: str, front: str) -> List[str]:
    return textwrap.wrap(text, WIDTH, initial_indent=front, subsequent_indent=front, break_long_words=False, break_on_hyphens=False)


def may_be_long(line: str) -> bool:
    """Returns whether a line is an import, or has a text in quotation marks or the rest of one."""
    return line.lstrip().startswith(("use ", "pub use ", "ghost use ")) or '"' in line


def comment(lines: List[str], begin: int) -> int:
    """Returns the index after the paragraph of a comment of a proof that begins at this one: `begin` if none does."""
    found, end = re.match(r"( *-- )(?! |---)", lines[begin]), begin
    while found and end < len(lines) and lines[end].startswith(found[1]) and not lines[end].startswith((f"{found[1]} ", f"{found[1]}---")):
        end += 1
    return end


def proof_lines(lines: List[str]) -> Iterator[str]:
    at = 0
    while at < len(lines):
        line, end = lines[at], comment(lines, at)
        part = lines[at:end]
        if any(len(it) > WIDTH for it in part):
            front = line[: line.index("-- ") + 3]
            yield from filled(" ".join(it[len(front) :].strip() for it in part), front)
        elif part or len(line) <= WIDTH or may_be_long(line) or " -- " in line:
            yield from part or [line]
        else:
            yield from proof_line(line)
        at = max(end, at + 1)


def paragraph(lines: List[str], begin: int) -> int:
    """Returns the index after the paragraph of a comment that begins at this one: `begin` if none does."""
    found, end = DOC.match(lines[begin]), begin
    while found and end < len(lines) and lines[end].startswith(f"{found[1]} ") and not ITEM.match(lines[end]):
        end += 1
    return end


def source_lines(lines: List[str]) -> Iterator[str]:
    at = 0
    while at < len(lines):
        end = paragraph(lines, at)
        part = lines[at : max(end, at + 1)]
        if end > at and any(len(it) > WIDTH for it in part):
            front = f"{DOC.match(part[0])[1]} "
            part = filled(" ".join(it[len(front) :].strip() for it in part), front)
        yield from part
        at = max(end, at + 1)


def written(path: str) -> List[str]:
    """Breaks the long lines of a file; returns its lines."""
    with open(path, encoding="utf-8") as file:
        lines = file.read().split("\n")
    made = list(source_lines(lines) if path.endswith(".rt") else proof_lines(lines))
    if made != lines:
        with open(path, "w", encoding="utf-8") as file:
            file.write("\n".join(made))
    return made


def is_code_with_a_text(lines: List[str], at: int) -> bool:
    """Returns whether the line of a `.rt` file is inside a text that began on an earlier line."""
    return sum(it.count('"') - it.count('\\"') for it in lines[:at]) % 2 == 1


def faults(path: str, lines: List[str]) -> Iterator[str]:
    for number, line in enumerate(lines, 1):
        is_in_text = path.endswith(".rt") and not line.lstrip().startswith("//") and is_code_with_a_text(lines, number - 1)
        if len(line) > WIDTH and not may_be_long(line) and not is_in_text:
            yield f"{path}:{number}: {len(line)} columns: at most {WIDTH}; break the line, or run tests/line_width.py --write"


def main() -> int:
    parser = argparse.ArgumentParser(usage=__doc__.split("usage: ")[1].split("\n")[0])
    parser.add_argument("--write", action="store_true")
    parser.add_argument("files", nargs="*")
    arguments = parser.parse_args()
    files = arguments.files or sorted(it for pattern in FILES for it in glob.glob(pattern, recursive=True))
    cases = []
    for path in files:
        if arguments.write:
            written(path)
        with open(path, encoding="utf-8") as file:
            cases.append(list(faults(path, file.read().split("\n"))))
    return report(cases)


if __name__ == "__main__":
    sys.exit(main())
