"""Reads edits: which functions each mutates, or which constant it gives another value."""
import functools
import itertools
import os
import re

from mutation.texts import constants, contracts, functions, skeleton, type_name
from mutation.verdicts import Verdict

# How an edit is tried.
TWIN, IN_PLACE, CONSTANT, BAD = "on twins", "in place", "of a constant", "bad"


class Part:
    """A function that an edit mutates."""

    numbers = itertools.count(1)

    def __init__(self, edit, path, function, body):
        self.edit, self.path, self.function, self.body = edit, path, function, body
        # (no two twins have one name)
        self.number, self.lines, self.verdict = next(Part.numbers), (0, 0), None
        # (the goals that are left to two tactics: those that have a stored answer, with their files, and those that have none, with
        # the names of their arguments)
        self.without, self.given = [], []
        # (the goals without an answer that a check left open, and those given to the tactics that they do not prove of the
        # function's own body)
        self.offered, self.unproved = [], []
        # (the goals that are tried alone, each with the names of its arguments)
        self.alone = []

    def has_twin(self):
        return self.edit.kind == TWIN

    def twin_name(self, mark):
        return f"{self.function.name}{mark}{self.number}"

    def folders(self):
        """Returns the folders below proofs/ that may hold proof files of the function and of its closures, as lists of names."""
        closures = [*module_of(self.path), "fn", self.function.name]
        return [*proof_paths(self.edit.folder, self.path, self.function), closures]


class Edit:
    """An edit: the texts of the files that it changes, and the functions in them whose bodies it changes."""

    def __init__(self, folder, file):
        self.folder, self.name = folder, os.path.basename(file)
        self.kind, self.parts, self.constants, self.verdict = TWIN, [], [], None
        text = read(file)
        self.refused = re.findall(r"(?m)^refused: *(\S+)", text)
        self.shows = re.findall(r"(?m)^shows: *(\S.*)", text)
        self.goals = [(it[0], it[1:] or ["c"]) for it in map(str.split, re.findall(r"(?m)^goal: *(\S.*)", text))]
        # (what a verdict rests on: `shows:` is for readers)
        self.sum = "\n".join(line for line in text.split("\n") if not line.startswith("shows:")).strip()
        self.texts, why = edited(text, folder)
        for path, text in self.texts.items():
            why = why or self.compare(path, read(f"{folder}/{path}"), text)
        if self.parts and self.constants:
            why = why or "it changes bodies and constants"
        if why or not (self.parts or self.constants):
            self.kind, self.verdict = BAD, Verdict(False, f"BAD EDIT: {why or 'no function gets another body'}")

    def compare(self, path, old, new):
        """Adds what the edit changes in this file, or returns why that is no mutant."""
        was, now = functions(old), functions(new)
        if contracts(old, was) != contracts(new, now):
            return "it changes a clause or another ghost line: a mutant keeps its function's contract"
        if [it.key for it in was] != [it.key for it in now]:
            return "it adds, removes or renames a function"
        if skeleton(old, was) != skeleton(new, now):
            return self.compare_constants(path, old, new)
        for before, after in zip(was, now):
            if old[before.opens : before.end] != new[after.opens : after.end]:
                part = Part(self, path, before, new[after.opens : after.end])
                self.parts.append(part)
                if not before.stands_free() or self.is_recursive(part, old):
                    self.kind = IN_PLACE
        return None

    def compare_constants(self, path, old, new):
        was, now = constants(old), constants(new)
        changed = [it for it in was if it in now and was[it] != now[it]]
        for it in changed:
            new = new.replace(now[it], was[it])
        if not changed or new != old:
            return "it changes more than bodies, or more than constants"
        self.kind = CONSTANT
        self.constants += [(path, it, was[it], now[it]) for it in changed]
        return None

    def is_recursive(self, part, text):
        """Returns whether the function calls itself: a twin of it would call it, and not itself."""
        of_cycle = ["/".join([self.folder, "proofs", *at[:-1], f"+{at[-1]}"]) for at in part.folders()]
        return part.function.calls_itself(text) or any(os.path.isdir(it) for it in of_cycle)


def read(file):
    """Returns the text of the file, or an empty one where there is none."""
    try:
        with open(file, encoding="utf-8", errors="replace") as it:
            return it.read()
    except OSError:
        return ""


def module_of(path):
    """Returns the module of a file of src/, as a list of names."""
    inside = re.sub(r"(^|/)(lib|main|mod)$", "", path[len("src/") : -len(".rt")])
    return inside.split("/") if inside else []


def proof_paths(folder, path, function):
    """Returns the paths below proofs/, as lists of names, where the function's own proof files may stand: a method's stand
    where its type is declared."""
    at, block = module_of(path), function.block
    if block is None:
        return [[*at, function.name]]
    declared = modules_declaring(folder, type_name(block.own_type))
    others = [it for it in declared if it != at]
    # (a check names a method by its type's module, and one of a trait by that of the impl)
    is_far = block.is_inherent and others and at not in declared
    homes = [*others, at] if is_far else [at, *others]
    return [[*home, block.name(), function.name] for home in homes]


@functools.cache
def modules_declaring(folder, name):
    """Returns the modules of the crate that declare a type of this name."""
    found = []
    for path in sources(folder):
        if re.search(rf"(?m)^\s*(?:pub(?:\([^)]*\))?\s+)?(?:struct|enum)\s+{re.escape(name)}\b", read(f"{folder}/{path}")):
            found.append(module_of(path))
    return found


def sources(folder):
    """Returns the files of the crate's src/, by their paths below the crate."""
    files = (os.path.relpath(f"{at}/{it}", folder) for at, _, names in os.walk(f"{folder}/src") for it in names)
    return sorted(it for it in files if it.endswith(".rt"))


def edited(text, folder):
    """Returns the text of each file that the edit changes, by its path, and None, or why it cannot be applied."""
    path, inside, old, texts = "", "", None, {}
    for line in text.split("\n"):
        word, _, rest = line.partition(": ")
        if word == "file":
            path, inside = rest.strip(), ""
            if os.path.normpath(path) != path or not re.fullmatch(r"src/.*\.rt", path):
                return {}, "a 'file:' line names no file below src/"
        elif word == "in":
            inside = rest.strip()
        elif word == "old":
            old = rest
        elif word == "new" or line == "new:":
            if not path or not old:
                return {}, "a 'new:' line stands before any 'file:' or 'old:' line"
            texts.setdefault(path, read(f"{folder}/{path}"))
            texts[path], why = replaced(texts[path], path, inside, old, rest)
            if why:
                return {}, why
            old = None
    return texts, None if texts else "it has no 'old:' and 'new:' pair"


def replaced(text, path, inside, old, new):
    """Returns the text with `new` in place of `old`, which stands there once: in the body of the function that is named, or in the file."""
    begin, end = 0, len(text)
    if inside:
        of_type, _, name = inside.rpartition("::")
        there = [it for it in functions(text) if it.is_in(of_type, name)]
        if len(there) != 1:
            return text, f"{path} has {len(there)} functions {inside}, and not one"
        begin, end = there[0].opens, there[0].end
    found = text[begin:end].count(old)
    if found != 1:
        return text, f"an 'old:' text is in {inside or path} {found} times, and not once"
    return text[:begin] + text[begin:end].replace(old, new) + text[end:], None
