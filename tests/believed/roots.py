"""What the contracts of functions speak of, and all that this stands on."""
import glob
import os
import re

from .names import KEYWORDS, ROOT, bound_names, imported, mixed_uses, names_of, uses_of


def source_files(crate):
    return sorted(glob.glob(os.path.join(ROOT, "crates", crate, "src", "*.rt")))


def source_parts(path):
    """The imports of a Rust file for its contracts, and its text without comments."""
    text = re.sub(r"(?m)^\s*//.*\n|\s+//.*$", "", open(path, encoding="utf-8").read())
    lines = re.findall(r"ghost use ([^;]*);", text)
    return {here: (where, there) for line in lines for here, where, there in imported(line)}, text


def clauses(contract):
    """The clauses of a contract: (`requires` or `ensures`, name, text)."""
    parts = re.split(r"(?m)^\s*(requires|ensures)\b ?(\w*) ?", contract)
    return list(zip(parts[1::3], parts[2::3], parts[3::3]))


def contracts(text):
    """The functions of a file: (whether public, name, contract). A contract ends where a line is a brace, or two."""
    parts = re.split(r"(?m)^ *(pub |pub\(\w+\) )?(?:const )?fn (\w+)", text)
    ends = re.compile(r"(?m)^ *(?:\{\}?|\})$")
    functions = zip(parts[1::3], parts[2::3], parts[3::3])
    return [(seen == "pub ", name, ends.split(rest, maxsplit=1)[0]) for seen, name, rest in functions]


def speaks_of(library, imports, text):
    """What the names of one clause mean."""
    words, signs = names_of(text)
    bound = bound_names(text)
    found = mixed_uses(library, "", imports, signs)
    found |= {library.meaning("", imports, name, rest) for name, rest in words if name not in bound | KEYWORDS}
    return found - {None}


def root(library, crate, function, wanted):
    """What the wanted clauses of a function speak of."""
    for path in source_files(crate):
        imports, text = source_parts(path)
        for _, name, contract in contracts(text):
            if name == function:
                ensured = [(clause, said) for kind, clause, said in clauses(contract) if kind == "ensures"]
                missing = set(wanted) - {clause for clause, _ in ensured}
                if missing:
                    raise SystemExit("%s::%s: no clause %s" % (crate, function, ", ".join(sorted(missing))))
                said = [said for clause, said in ensured if not wanted or clause in wanted]
                return set().union(*(speaks_of(library, imports, each) for each in said))
    raise SystemExit("%s::%s: no such function" % (crate, function))


def closure(library, start, doubts):
    """All that these stand on."""
    reached, waiting = set(), list(start)
    while waiting:
        thing = waiting.pop()
        if thing not in reached:
            reached.add(thing)
            if thing[0] == "ours":
                waiting.extend(uses_of(library, library.definitions[thing[1:]], doubts))
    return reached
