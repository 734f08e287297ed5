#!/usr/bin/env python3
"""Checks that the pages are in plain English, and how many words they have.

usage: english.py [--counts] [FOLDER]

FOLDER is the repository. No page of PAGES and OTHERS may have a phrase of PHRASES outside of code, quoted text and links. No page of PAGES
may have more words than LIMITS says, and all together more than TOTAL. A word is what has a letter or a digit between blanks,
outside of blocks of code. --counts prints the words of each page. The phrases of a page whose sentences are those of the program's
sources are not looked for.
"""
import argparse
import glob
import os
import re
import sys

from verdict import report

TOP = os.path.dirname(os.path.dirname(os.path.abspath(__file__)))
PAGES = ("README.md", "CONTRIBUTING.md", "docs/*.md", "tests/README.md")
# Pages that are checked for phrases, and whose words are not limited.
OTHERS = ("CHANGELOG.md", "SECURITY.md", "docs/*/README.md", "examples/*/README.md", "tools/README.md")
TOTAL = 30_000
# Pages with a limit of their own that are not in the total: those whose tables are written from what was measured, and the proof's outline.
APART = {"docs/LAB.md": 3_000, "docs/PROOF.md": 2_500, "docs/SPEED.md": 600}
# The most words of a page, and of any other page.
LIMITS = {
    "README.md": 700, "CONTRIBUTING.md": 2_100, "docs/ARCHITECTURE.md": 2_200, "docs/BELIEVE.md": 2_700, "docs/DECISIONS.md": 2_900,
    "docs/FORMATS.md": 3_100, "docs/GATE.md": 1_800, "docs/GLOSSARY.md": 2_300, "docs/GUIDE.md": 3_300, "docs/PROVED.md": 3_400,
    "docs/REFUSALS.md": 5_500, "docs/SCALE.md": 900, "tests/README.md": 1_400,
}
OTHER_LIMIT = 1_500
# Pages whose sentences are those of sources: REFUSALS has those of crates/fx_words/src.
ELSEWHERE = ("docs/REFUSALS.md",)
# Phrases that are not English or not the field's, each with what to write.
PHRASES = {
    r"tells?|told|telling": "reports, says, prints, explains",
    r"(?:un)?told": "known and opaque source",
    r"stands?(?!-in)|stood|standing": "is, occurs, comes",
    r"behind": "after, following",
    r"com(?:e|es|ing) of|came of": "is caused by, results from",
    r"wants? of|for want": "out of, lack of",
    r"wants": "requires, needs",
    r"lets? (?:\w+ )?go|letting go": "drops, frees",
    r"in place of|in (?:its|their) place": "instead of",
    r"as far as": "where, if",
    r"likewise": "also",
    r"so many": "as many, that many",
    r"in turns": "interleaved",
    r"\d+ of 100\b": "percent",
    r"by the clock": "elapsed, minutes",
    r"dear(?:er|est)?": "expensive",
    r"wrong (?:words|word|bod(?:y|ies))": "wrong arguments, mutants",
    r"words (?:that|which) (?:do not|don't) parse|words of the command line|in the order of the words": "arguments",
    r"rooms?": "crate, memory, space, buffer",
    r"hands? (?:\w+ )?on|handed on": "re-exports, passes on",
    r"machine that judges": "the machine of the gate",
    r"before it gives up": "before it answers 601",
    r"is laid|lies in|lie in": "is in",
    r"a (?:line|file|page|word) an? (?!second|minute)\w+|one an axis": "one for each",
}
CODE = (r"(?ms)^```.*?^```$", r"(?m)^(?:    |\t).*$")
QUOTED = (r"`[^`]*`", r"\"[^\"\n]*\"", r"\]\([^)]*\)")


def without(text, patterns):
    """Returns a text with what patterns match blanked out, so that lines keep their numbers."""
    for pattern in patterns:
        text = re.sub(pattern, lambda match: re.sub(r"[^\n]", " ", match[0]), text)
    return text


def words(text):
    """Returns how many words a page has, without its blocks of code."""
    return sum(bool(re.search(r"\w", word)) for word in without(text, CODE).split())


def phrases(page, text):
    """Yields the phrases of a page that are not English, with their lines and what to write."""
    text = without(text, CODE + QUOTED)
    for pattern, better in PHRASES.items():
        for match in re.finditer(rf"(?i)(?<![\w-])(?:{pattern})(?![\w-])", text):
            yield f"{page}:{text.count(chr(10), 0, match.start()) + 1}: '{match[0]}': write: {better}"


def read(folder, patterns):
    """Returns the pages of a folder, by name."""
    found = {}
    for pattern in patterns:
        for path in sorted(glob.glob(os.path.join(folder, pattern))):
            with open(path, encoding="utf-8") as file:
                found[os.path.relpath(path, folder)] = file.read()
    return found


def faults(folder):
    """Yields each page with its faults, and last the sum of words with its."""
    counted, others = read(folder, PAGES), read(folder, OTHERS)
    for page, text in {**counted, **others}.items():
        wrong = [] if page in ELSEWHERE else [*phrases(page, text)]
        limit = {**LIMITS, **APART}.get(page, OTHER_LIMIT)
        if page in counted and words(text) > limit:
            wrong.append(f"{page}: {words(text)} words, {limit} at most: shorten it, or link to the page that has the fact")
        yield wrong
    total = sum(words(text) for page, text in counted.items() if page not in APART)
    yield [f"the pages have {total} words, {TOTAL} at most"] if total > TOTAL else []


def main(arguments):
    parser = argparse.ArgumentParser(usage="english.py [--counts] [FOLDER]")
    parser.add_argument("--counts", action="store_true")
    parser.add_argument("folder", nargs="?", default=TOP)
    given = parser.parse_args(arguments)
    if given.counts:
        counts = {page: words(text) for page, text in read(given.folder, PAGES).items()}
        print("\n".join(f"{page}: {count}" for page, count in counts.items()))
        print(f"all: {sum(count for page, count in counts.items() if page not in APART)}")
        return 0
    return report(faults(given.folder))


if __name__ == "__main__":
    sys.exit(main(sys.argv[1:]))
