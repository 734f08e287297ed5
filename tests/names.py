#!/usr/bin/env python3
"""Checks that the names which pages for maintainers mention exist in the sources.

usage: names.py [FOLDER]

FOLDER is the repository. In PAGES each crate, each file of a crate and each identifier between backticks must exist: a crate as a folder of
crates/, a file in the src, specs or proofs of its crate (of any crate if none is named), an identifier as a word of the sources, the
definitions, the proofs, the scripts or the Makefile. Names in capitals stand for others (`NAME_command`). Prints a line for each
that does not exist, and last `N passed, M failed`, of pages.
"""
import argparse
import glob
import os
import re
import sys

from english import CODE, without
from verdict import report

TOP = os.path.dirname(os.path.dirname(os.path.abspath(__file__)))
PAGES = ("CONTRIBUTING.md", "docs/ARCHITECTURE.md", "docs/DECISIONS.md", "docs/GATE.md", "docs/GLOSSARY.md", "docs/PROOF.md", "docs/PROVED.md",
         "tests/README.md")
SOURCES = ("crates/*/src/**/*.rt", "crates/*/specs/*.antt", "crates/*/proofs/**/*.antt", "crates/*/CALLING.md", "tests/**/*.py", "packaging/*.py",
           "bench/*.py", "Makefile", "docs/FORMATS.md", "docs/schemas/*", "tools/once_tools/**/*.py")
# What the kit, Rust, Python and other programs call so.
GIVEN = set("std clap Global Option None Ok Box Err drop ensures requires serde_json indexmap smallvec getentropy scapy jsonschema dot apt".split())
CRATE, IDENTIFIER = r"fx_\w+", r"\w+(?:::\w+)*"
FILE = r"(?:crates/)?(?:(fx_\w+)/)?(?:(src|specs|proofs)(?:/|$))?([\w/]*)(\.rt|\.antt)?"
# What is no name of its own but an example of one, or a number.
ANY = r"[A-Z]{3}|\bFile\b|^\d"


class Sources:
    """The names that a repository has."""

    def __init__(self, folder):
        self.crates = set(os.listdir(os.path.join(folder, "crates")))
        self.words, self.files = set(), set()
        for pattern in SOURCES:
            for path in glob.glob(os.path.join(folder, pattern), recursive=True):
                self.add(folder, path)

    def add(self, folder, path):
        parts = os.path.relpath(path, folder).split(os.sep)
        if parts[0] == "crates":
            names = os.path.splitext("/".join(parts[3:]))[0].split("/")
            known = {names[-1], *("/".join(names[:end]) for end in range(1, len(names) + 1))}
            self.files |= {(crate, name) for crate in (parts[1], None) for name in known}
            self.words |= set(names)
        with open(path, encoding="utf-8", errors="replace") as file:
            self.words |= set(re.findall(r"\w+", file.read()))

    def has(self, name):
        """Returns whether a name between backticks exists; what is no name does."""
        if re.fullmatch(CRATE, name):
            return name in self.crates or name in self.words
        if re.search(ANY, name):
            return True
        file = re.fullmatch(FILE, name)
        if file and (file[1] or file[2] or file[4]):
            return (file[1], file[3]) in self.files if file[3] else file[1] is None or file[1] in self.crates
        if not re.fullmatch(IDENTIFIER, name) or name in GIVEN:
            return True
        return all(part in self.words or part in GIVEN or part in self.crates for part in name.split("::"))


def faults(page, text, sources):
    """Yields the names of a page that do not exist, with their lines."""
    text = without(text, CODE)
    for match in re.finditer(r"`([^`\n]+)`", text):
        if not sources.has(match[1]):
            yield f"{page}:{text.count(chr(10), 0, match.start()) + 1}: there is no {match[1]}: name what it is called now"


def main(arguments):
    parser = argparse.ArgumentParser(usage="names.py [FOLDER]")
    parser.add_argument("folder", nargs="?", default=TOP)
    folder = parser.parse_args(arguments).folder
    sources, texts = Sources(folder), {}
    for page in PAGES:
        with open(os.path.join(folder, page), encoding="utf-8") as file:
            texts[page] = file.read()
    return report(faults(page, text, sources) for page, text in texts.items())


if __name__ == "__main__":
    sys.exit(main(sys.argv[1:]))
