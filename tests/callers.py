#!/usr/bin/env python3
"""Whether the callers that crates' CALLING.md quote are those that are proved in fx_callers."""
import glob
import os
import re
import sys

TOP = os.path.dirname(os.path.dirname(os.path.abspath(__file__)))


def main():
    proved = ""
    for file in glob.glob(f"{TOP}/crates/fx_callers/src/*.rt") + glob.glob(f"{TOP}/crates/fx_callers/specs/*.antt"):
        with open(file, encoding="utf-8") as source:
            proved += source.read()
    wrong = count = 0
    for file in sorted(glob.glob(f"{TOP}/crates/*/CALLING.md")):
        with open(file, encoding="utf-8") as page:
            quotes = re.findall(r"(?ms)^```\w*\n(.*?)^```$", page.read())
        for quote in quotes:
            count += 1
            if quote not in proved:
                wrong += 1
                print(f"{os.path.relpath(file, TOP)}: quotes what isn't in fx_callers")
    print(f"callers: {count - wrong} passed, {wrong} failed")
    return 1 if wrong or not count else 0


sys.exit(main())
