#!/usr/bin/env python3
"""refusals.py [--compare]: writes docs/REFUSALS.md, an explanation of each refusal, from the tables of crates/fx_words/src.

Each number has its constant (crates/fx_base/src/refusals.rt), what is wrong, the usual causes, what to do and where to read on,
and an example or a row of tests/rows with this answer, if there is one.

  --compare  writes nothing: reports where docs/REFUSALS.md is out of date, which numbers have no texts or more than one
             row of them, which texts have no number or are not plain ASCII, and which numbers in a table of README.md are not
             refusals; the exit status is then 1
"""
import glob
import os
import re
import sys

TOP = os.path.dirname(os.path.dirname(os.path.abspath(__file__)))
PAGE = os.path.join(TOP, "docs", "REFUSALS.md")
TABLES = os.path.join(TOP, "crates", "fx_words", "src")

HEAD = """# Refusals

What each number means that the program answers, its usual causes, and what to do. Answers are `refused N PLACE`, `no N PLACE`, `unknown N`, `memory N` and `device N`; the place, if there is one, is a JSON Pointer (RFC 6901) into a document, a line of a text, or an octet. [FORMATS](FORMATS.md) describes each text. An example is a folder with this answer.

`tests/refusals.py` writes this page from the tables of `crates/fx_words/src`, which `once explain` prints.

"""


def read(*names):
    with open(os.path.join(TOP, *names), encoding="utf-8") as file:
        return file.read()


def constants():
    """The name of each number, in their order."""
    found = re.findall(r"^pub const (\w+): u16 = (\d+);", read("crates", "fx_base", "src", "refusals.rt"), re.M)
    return {int(number): name for name, number in found if not name.endswith(("_FIRST", "_LAST"))}


def text_of(literal):
    """What a string of the source says: a line that ends in a backslash goes on at the next one's first word."""
    return re.sub(r"\\(.)", r"\1", re.sub(r"\\\n\s*", "", literal))


def tables():
    """What each table is of, with its rows: a constant's name, what is wrong, the causes, what to do, and where to read."""
    string = r'"((?:[^"\\]|\\.)*)",\s*'
    row = re.compile(r"\(\s*refusals::(\w+),\s*" + 4 * string + r"\)", re.S)
    for file in glob.glob(f"{TABLES}/*.rt"):
        source = read(file)
        rows = [(match[1], *(text_of(match[n]) for n in range(2, 6))) for match in row.finditer(source)]
        if rows:
            yield re.match(r"//! The refusals of (.*)\.\n", source)[1], rows


def answers():
    """The folder that has an answer of each number: examples first, then rows, short names first."""
    found = {}
    for kind, names in (("examples", r"answer.*\.txt"), ("tests/rows", r"stdout")):
        for folder in sorted(glob.glob(f"{TOP}/{kind}/*/"), key=lambda name: (len(name), name)):
            for name in sorted(os.listdir(folder)):
                if re.fullmatch(names, name):
                    with open(os.path.join(folder, name), encoding="utf-8", errors="replace") as file:
                        answer = re.match(r"(?:refused|no|unknown|memory|device) (\d+)\b", file.readline())
                    if answer:
                        found.setdefault(int(answer[1]), os.path.relpath(folder, TOP))
    return found


def section(number, row, answered):
    """The lines of a number."""
    name, wrong, cause, cure, place = row
    yield f"### {number} {name}\n\n{wrong}\n\n"
    yield f"- Causes: {cause}\n"
    yield f"- Fix: {cure}\n"
    sources = [it for it in place.split("; ") if it and not it.startswith("FORMATS")]
    if sources:
        yield f"- See: {'; '.join(sources)}\n"
    if number in answered:
        yield f"- Example: `{answered[number]}`\n"
    yield "\n"


def page(named):
    """What the page should be."""
    number_of = {name: number for number, name in named.items()}
    hundreds = []
    for title, rows in tables():
        rows = sorted((number_of[row[0]], row) for row in rows if row[0] in number_of)
        if rows:
            hundreds.append((rows[0][0] // 100, title, rows))
    text, answered = HEAD, answers()
    for hundred, title, rows in sorted(hundreds):
        text += f"## {hundred}xx: {title}\n\n" + "".join(line for row in rows for line in section(*row, answered))
    return text.rstrip("\n") + "\n"


def faults(named):
    """What is wrong with the tables and with the README's tables."""
    worded = [row[0] for _, rows in tables() for row in rows]
    for number, name in named.items():
        if worded.count(name) != 1:
            yield f"{number} {name}: {'no texts' if name not in worded else 'texts more than once'} in crates/fx_words"
    for _, rows in tables():
        for name, *texts in rows:
            if any(not " " <= character <= "~" for text in texts for character in text):
                yield f"{name}: a character that isn't plain ASCII"
    for name in worded:
        if name not in named.values():
            yield f"{name}: texts of a number that isn't in crates/fx_base/src/refusals.rt"
    for cell in re.findall(r"^\| *((?:\d{3}(?:, )?)+) *\|", read("README.md"), re.M):
        for number in map(int, re.findall(r"\d+", cell)):
            if number not in named:
                yield f"README.md: {number} is no refusal's number"


def main():
    named = constants()
    wrong = list(faults(named))
    text = page(named)
    if "--compare" not in sys.argv:
        with open(PAGE, "w", encoding="utf-8") as file:
            file.write(text)
    elif not os.path.exists(PAGE) or read("docs", "REFUSALS.md") != text:
        wrong.append("docs/REFUSALS.md is out of date: run tests/refusals.py")
    for line in wrong:
        print(line)
    print(f"refusals: {len(named)} numbers, {len(wrong)} wrong")
    return 1 if wrong else 0


sys.exit(main())
