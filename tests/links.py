#!/usr/bin/env python3
"""Checks that the links of the pages lead to files and headings of the repository.

usage: links.py [FOLDER]

FOLDER is the repository. The pages are all *.md files that git has there, or all below FOLDER without git. Links to other sites are not
followed. Prints a line for each link that leads nowhere, and last `N passed, M failed`, of pages.
"""
import argparse
import glob
import os
import re
import sys

from english import CODE, without
from program import NOWHERE, run
from verdict import report

TOP = os.path.dirname(os.path.dirname(os.path.abspath(__file__)))
LINK = re.compile(r"\]\(([^)\s]+)\)")


def pages(folder):
    listed = run(["git", "ls-files", "-co", "--exclude-standard", "*.md"], folder, stderr=NOWHERE, text=True)
    names = listed.stdout.splitlines() if listed.returncode == 0 else []
    return sorted(it for it in names if os.path.exists(os.path.join(folder, it))) or sorted(
        os.path.relpath(it, folder) for it in glob.glob(os.path.join(folder, "**/*.md"), recursive=True))


def read(path):
    with open(path, encoding="utf-8") as file:
        return file.read()


def anchors(text):
    """Returns the anchors of a page's headings, as GitHub makes them."""
    headings = re.findall(r"(?m)^#+ (.*)$", without(text, CODE[:1]))
    return {re.sub(r"[^\w\- ]", "", heading.lower()).replace(" ", "-") for heading in headings}


def faults(folder, page):
    """Yields the links of a page that lead nowhere."""
    for link in LINK.findall(without(read(os.path.join(folder, page)), CODE)):
        if re.match(r"[a-z]+:", link):
            continue
        target, _, anchor = link.partition("#")
        path = os.path.normpath(os.path.join(folder, os.path.dirname(page), target)) if target else os.path.join(folder, page)
        if not os.path.exists(path):
            yield f"{page}: there is no {link}"
        elif anchor and anchor not in anchors(read(path)):
            yield f"{page}: {target or page} has no heading #{anchor}"


def main(arguments):
    parser = argparse.ArgumentParser(usage="links.py [FOLDER]")
    parser.add_argument("folder", nargs="?", default=TOP)
    folder = parser.parse_args(arguments).folder
    return report(faults(folder, page) for page in pages(folder))


if __name__ == "__main__":
    sys.exit(main(sys.argv[1:]))
