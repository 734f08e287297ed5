#!/usr/bin/env python3
"""definitions.py [--compare | --doubts]: writes docs/BELIEVE.md, the definitions that a reader has to believe, by command.

A root is a public contract, or one clause of it. The names that it speaks of are followed through the imports of
crates/NAME/src and crates/NAME/specs, name by name, to all definitions that they stand on.

  --compare  writes nothing: says where docs/BELIEVE.md or docs/PROVED.md isn't what it should be, and which files of
             definitions a public contract cites that docs/GLOSSARY.md doesn't name; the exit status is then 1
  --doubts   prints names that nothing explains, and bound names that are also names of definitions
"""
import collections
import os
import re
import sys

from believed.names import ROOT, Library
from believed.roots import clauses, closure, contracts, root, source_files, source_parts, speaks_of

BELIEVE = os.path.join(ROOT, "docs", "BELIEVE.md")

# What the lists are of: the title, and the roots: a contract with its clauses (none named: all that ensure something),
# or a definition with its file.
COMMANDS = [
    ("The headline: clause `once` of `fx_check::check`", [("fx_check", "check", ["once"])]),
    ("What the documents mean: `network_of` and `traffic_of`, by which a yes of `once check` speaks of octets",
     [("fx_topology/Networks", "network_of"), ("fx_traffic/Classes", "traffic_of")]),
    ("`fx_checker::check_bytes`", [("fx_checker", "check_bytes", [])]),
    ("`fx_join::join_bytes`", [("fx_join", "join_bytes", [])]),
    ("`fx_audit::replay_bytes`", [("fx_audit", "replay_bytes", [])]),
    ("`fx_audit::collect_bytes`", [("fx_audit", "collect_bytes", [])]),
    ("`fx_audit::run_bytes`", [("fx_audit", "run_bytes", [])]),
    ("`fx_audit::confirm_bytes`", [("fx_audit", "confirm_bytes", [])]),
    ("`fx_audit::audit_bytes`", [("fx_audit", "audit_bytes", [])]),
    ("`fx_audit::lint_bytes`", [("fx_audit", "lint_bytes", [])]),
    ("`fx_audit::lint_both_bytes`", [("fx_audit", "lint_both_bytes", [])]),
    ("`fx_audit::bundle_bytes`", [("fx_audit", "bundle_bytes", [])]),
    ("The law of whole runs: `fx_conform::runs_are_complete`", [("fx_conform", "runs_are_complete", [])]),
    ("The law of calls: `fx_conform::calls_are_rows`", [("fx_conform", "calls_are_rows", [])]),
    ("`fx_checker::answer_arguments`: `once_check`", [("fx_checker", "answer_arguments", [])]),
    ("`answer`, a private function of `fx_cli`: from the arguments to the exit status", [("fx_cli", "answer", [])]),
]


def by_file(library, things):
    files = collections.defaultdict(list)
    for thing in things:
        if thing[0] == "ours":
            files[thing[1]].append(library.definitions[thing[1:]])
    return files


def totals(library, things):
    """How many definitions, their lines and their files."""
    files = by_file(library, things)
    found = [definition for group in files.values() for definition in group]
    return len(found), sum(definition.lines() for definition in found), len(files)


def files(library, things):
    """A line for each file: how many definitions of it, of how many lines, and their names."""
    for module, group in sorted(by_file(library, things).items()):
        names = ", ".join("`%s`" % d.name for d in sorted(group, key=lambda d: d.name))
        yield "- `%s`(%d/%d): %s" % (module, len(group), sum(d.lines() for d in group), names)


def others(things, kind):
    """The Rust types or the names of libraries, by crate."""
    groups = collections.defaultdict(set)
    for thing in things:
        if thing[0] == kind:
            groups[thing[1]].add(thing[2])
    for crate, names in sorted(groups.items()):
        yield "- `%s`: %s" % (crate, ", ".join("`%s`" % name for name in sorted(names)))


def section(library, title, besides, new):
    """A command's part of the file; `besides` if others come before it."""
    yield "## " + title
    yield ""
    yield "%s: %d, of %d lines in %d files." % (("More definitions" if besides else "Definitions",) + totals(library, new))
    yield ""
    yield from files(library, new)
    types = list(others(new, "type"))
    if types:
        yield ""
        yield "Rust:"
        yield ""
        yield from types
    yield ""


INTRODUCTION = """# The definitions to believe, by command

`python3 tests/definitions.py` writes this file, and the gate compares it. Don't change it by hand.

A contract says no more than its definitions, so whoever relies on a command has to read and believe them. Each list begins with the names that the contract's `ensures` clauses use and follows every name to its own definition, and so on; an unused import adds nothing. A list leaves out what lists above it have. Definitions in no list are means of proof, or serve contracts of other functions.

`fx_layout/Keys` is `crates/fx_layout/specs/Keys.antt`. `(2/7)` after it means 2 definitions of 7 lines, with their types and without comments and empty lines. Types and constants of Rust that the definitions name are listed by crate and file, and not counted; their fields and values are in `crates/NAME/src`. How a contract sees its arguments (`ghost view`) isn't followed: the types of the definitions that take them show it. Names of libraries come last; the kit says what they mean.
"""


def start_of(library, place, name, *wanted):
    """What a root speaks of: a contract's clauses, or a definition by itself."""
    return root(library, place, name, *wanted) if wanted else {("ours", place, name)}


def rounds(library, doubts):
    """Each command with what it and those before it need, and with what no earlier one needs."""
    seen = set()
    for title, roots in COMMANDS:
        start = set().union(*(start_of(library, *each) for each in roots))
        reached = closure(library, start, doubts)
        yield title, seen | reached, reached - seen
        seen = seen | reached


def written(library, found):
    lines = [INTRODUCTION]
    for number, (title, _, new) in enumerate(found):
        lines += section(library, title, number > 0, new)
    lines += ["## Names of libraries", ""]
    lines += others(found[-1][1], "library")
    return "\n".join(lines) + "\n"


def sentences(library, found):
    """What docs/PROVED.md has to say."""
    yield "clause `once` reaches %d definitions, of %d lines in %d files" % totals(library, found[0][1])
    yield "with what the documents mean they are %d, of %d lines in %d files" % totals(library, found[1][1])
    yield "with all clauses of `check_bytes` they are %d, of %d lines in %d files" % totals(library, found[2][1])


def cited_modules(library):
    """The files of definitions that contracts of public functions speak of, each with one that does."""
    cited = {}
    for path in source_files("fx_*"):
        imports, text = source_parts(path)
        for public, name, contract in contracts(text):
            if public:
                said = [speaks_of(library, imports, clause) for _, _, clause in clauses(contract)]
                found = [thing for thing in set().union(*said) if thing[0] == "ours"]
                cited.update((thing[1], "%s of %s" % (name, os.path.relpath(path, ROOT))) for thing in found)
    return cited


def named_modules():
    """The files that docs/GLOSSARY.md names; a name without a crate is of the crate before it in its line."""
    named = set()
    for row in read(os.path.join(ROOT, "docs", "GLOSSARY.md")).split("\n"):
        crate = None
        for word in re.findall(r"`([\w/]+)`", row):
            before, _, name = word.rpartition("/")
            crate = before or crate
            named.add("%s/%s" % (crate, name) if before or crate else word + "/*")
    return named


def read(path):
    if not os.path.exists(path):
        return ""
    with open(path, encoding="utf-8") as file:
        return file.read()


def differences(library, found):
    if read(BELIEVE) != written(library, found):
        yield "docs/BELIEVE.md isn't what `python3 tests/definitions.py` writes: run it"
    proved = " ".join(read(os.path.join(ROOT, "docs", "PROVED.md")).split())
    for sentence in sentences(library, found):
        if sentence not in proved:
            yield "docs/PROVED.md doesn't say: " + sentence
    named = named_modules()
    for module, where in sorted(cited_modules(library).items()):
        if module not in named and module.split("/")[0] + "/*" not in named:
            yield "docs/GLOSSARY.md doesn't name %s (%s)" % (module, where)


def main(words):
    library, doubts = Library(), []
    found = list(rounds(library, doubts))
    if words == ["--doubts"]:
        print("\n".join(sorted(set(doubts))))
        return 0
    if words == ["--compare"]:
        faults = list(differences(library, found))
        print("\n".join(faults) if faults else "the definitions to believe are as written")
        return 1 if faults else 0
    with open(BELIEVE, "w", encoding="utf-8") as file:
        file.write(written(library, found))
    return 0


if __name__ == "__main__":
    if sys.argv[1:] not in ([], ["--compare"], ["--doubts"]):
        sys.exit(__doc__)
    sys.exit(main(sys.argv[1:]))
