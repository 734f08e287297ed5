#!/usr/bin/env python3
"""Checks that all clauses are within 100 columns; with --wrap, breaks those that aren't.

    clauses.py [--wrap] [FILE ..]

Without files, all sources of all crates. A clause reaches from `requires`, `ensures` or `ghost NAME =` (or `:`) to the closing brace of
its term. A broken line continues with the operator of least depth that fits.
"""
import glob
import os
import re
import sys

WIDTH = 100
# One clause of this file is wider. To break it is to prove its crate and all above it again: break it with the next change there.
LATER = ("crates/fx_check/src/stack.rt",)
HEAD = re.compile(r"^( *)((?:requires|ensures)\b|ghost \w+ ?[=:])")
# Operators before which a clause is broken, those that bind least first.
OPERATORS = ["⊎", "→", "↔", "×", "≡", "≢", "≤", "<", "==", "&&", "||", "++", "∷", "+", "-", "then", "else"]


def clause_at(lines, start):
    """The number of the line after the clause that begins at this one, or None where its term doesn't close."""
    depth = 0
    for number in range(start, len(lines)):
        for character in lines[number]:
            if character == "{":
                depth += 1
            elif character == "}":
                depth -= 1
        if depth == 0 and "{" in "".join(lines[start : number + 1]):
            return number + 1
    return None


def clauses(lines):
    """Each clause, as the numbers of its first line and of the line after it."""
    number = 0
    while number < len(lines):
        if HEAD.match(lines[number]):
            end = clause_at(lines, number)
            if end is not None:
                yield number, end
                number = end
                continue
        number += 1


def depths(text):
    """The depth of each character of a text in parentheses, braces and brackets."""
    found, depth = [], 0
    for character in text:
        if character in ")}]":
            depth -= 1
        found.append(depth)
        if character in "({[":
            depth += 1
    return found


def break_of(text, room):
    """Where to break a text so that its first part has at most this many characters: the index of a space."""
    depth = depths(text)
    best = None
    for place in range(1, min(room + 1, len(text))):
        before, behind = text[:place].split(" ")[-1], text[place + 1 :].split(" ", 1)[0]
        if text[place] != " " or behind == "}" or before in OPERATORS or re.search(r"[{(]$|λ$|^λ|record$", before):
            continue
        operator = OPERATORS.index(behind) if behind in OPERATORS else 20
        short = place < room * 2 // 5
        score = (short, 2 * depth[place] + (3 if operator == 20 else 0), operator, -place)
        if best is None or score < best[0]:
            best = (score, place)
    return None if best is None else best[1]


def wrapped(line, first):
    """A line of a clause, broken so that each part has at most WIDTH columns; the others are indented further than the first
    line of a clause."""
    indent = re.match(r" *", line).group(0)
    text, found = line.strip(), []
    while len(indent) + len(text) > WIDTH:
        place = break_of(text, WIDTH - len(indent))
        if place is None:
            break
        found.append(indent + text[:place])
        text = text[place + 1 :]
        if first and len(found) == 1:
            indent += "    "
    return found + [indent + text]


def main():
    names = [word for word in sys.argv[1:] if not word.startswith("--")]
    wrap = "--wrap" in sys.argv
    here = os.path.dirname(os.path.dirname(os.path.abspath(__file__)))
    files = names or sorted(glob.glob(f"{here}/crates/*/src/**/*.rt", recursive=True))
    count = wide = 0
    for file in files:
        with open(file, encoding="utf-8") as source:
            lines = source.read().split("\n")
        changed = []
        for start, end in clauses(lines):
            count += 1
            if os.path.relpath(file, here) not in LATER and any(len(line) > WIDTH for line in lines[start:end]):
                if wrap:
                    changed.append((start, end, [part for n in range(start, end) for part in wrapped(lines[n], n == start)]))
                else:
                    wide += 1
                    print(f"{os.path.relpath(file, here)}:{start + 1}: a clause of more than {WIDTH} columns")
        for start, end, new in reversed(changed):
            lines[start:end] = new
        if changed:
            with open(file, "w", encoding="utf-8") as source:
                source.write("\n".join(lines))
    print(f"clauses: {count - wide} within {WIDTH} columns, {wide} wider")
    return 1 if wide else 0


sys.exit(main())
