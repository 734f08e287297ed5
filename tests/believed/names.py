"""The definitions of crates/NAME/specs and the contracts of crates/NAME/src: what the names in them mean."""
import glob
import os
import re

ROOT = os.path.dirname(os.path.dirname(os.path.dirname(os.path.abspath(__file__))))
WORDS = r"(?:(?:pub|abbrev|unfoldable) )*"
HEAD = re.compile(r"(?=(?:pub|abbrev|unfoldable|record|data) |[\w']+ : )%s(?:(record|data) )?(?:pub )?([\w']+|◌\S+◌)(?= )(.* : |.*\bwhere$)" % WORDS)
NAME = re.compile(r"(\.?)(?<!\w)([^\W\d][\w']*)((?:\.[\w']+)*)")
SIGN = re.compile(r"[^\w\s(){};,.]+")
BINDER = re.compile(r"[({]((?:[^\W\d][\w']* )+):|λ ((?:[^\W\d][\w']* )*[^\W\d][\w']*)\.|\blet ([\w']+)|([\w']+) ←")
LABEL = re.compile(r"([{;]\s*)[\w']+ = ")
KEYWORDS = {"record", "data", "where", "let", "in", "pub", "abbrev", "unfoldable", "Type", "λ", "_", "if", "then", "else",
            "result", "old", "now", "new", "do", "elim",
            "Unit", "tt"}


class Definition:
    """A definition: where it stands, its lines, and the texts in which names are looked for."""

    def __init__(self, module, name, kind):
        self.module, self.name, self.kind = module, name, kind
        self.blocks = []

    def lines(self):
        return sum(len(block.strip().split("\n")) for block in self.blocks)

    def key(self):
        return (self.module, self.name)


def without_comments(text):
    lines = [re.sub(r"(^|\s+)--( .*)?$", "", line) for line in text.split("\n")]
    return [line for line in lines if line.strip()]


def imported(line):
    """The names that a line `use PATH.{a, b as c}` or `use PATH as alias` gives: (name here, path, name there)."""
    path, braces, rest = line.partition(".{")
    if not braces:
        path, _, alias = line.partition(" as ")
        return [(alias.strip(), path.strip(), None)]
    names = [part.strip() for part in rest.rstrip().rstrip("}").split(", ")]
    pairs = [re.split(r" as ", name) for name in names if name]
    return [(pair[-1], path.strip(), pair[0]) for pair in pairs]


def read_module(path):
    """The imports and the definitions of a file."""
    module = re.sub(r".*/(\w+)/specs/(\w+)\.antt", r"\1/\2", path)
    imports, definitions, current = {}, {}, None
    for line in without_comments(open(path, encoding="utf-8").read()):
        head = HEAD.match(line)
        if line.startswith(("use ", "pub use ")):
            imports.update((here, (where, there)) for here, where, there in imported(line.split("use ", 1)[1]))
        elif line.startswith(("pub mod ", "mod ", "infix")):
            continue
        elif head and line[0] not in " }])":
            current = Definition(module, head.group(2), head.group(1))
            definitions[current.name] = current
            current.blocks.append(line)
        elif line[0] in " }])":
            current.blocks[-1] += "\n" + line
        else:
            current.blocks.append(line)
    return module, imports, definitions


class Library:
    """All definitions of all crates, and what the names in each file mean."""

    def __init__(self):
        self.imports, self.definitions, self.owner = {}, {}, {}
        for path in sorted(glob.glob(os.path.join(ROOT, "crates", "*", "specs", "*.antt"))):
            module, imports, definitions = read_module(path)
            self.imports[module] = imports
            for definition in definitions.values():
                self.definitions[definition.key()] = definition
                self.own_constructors(definition)

    def own_constructors(self, definition):
        """The constructors of a `data` mean the definition that they stand in."""
        if definition.kind == "data":
            for names in re.findall(r"\n  ((?:[\w']+ )+):", definition.blocks[0]):
                for name in names.split():
                    self.owner[(definition.module, name)] = definition.key()

    def find(self, module, name):
        """The definition of this name in a file, or the one of another file that it hands on."""
        key = (module, name)
        if key in self.definitions:
            return key
        path, there = self.imports.get(module, {}).get(name, (None, None))
        if there and path.startswith("Rattle.fx_") and ".specs.declared." not in path:
            words = path.split(".")
            return self.find("%s/%s" % (words[1], words[3]), there)
        return self.owner.get(key)

    def target(self, path, name):
        """What a name under a path is: ours, a Rust type or constant of ours, or a name of a library."""
        words = path.split(".")
        if words[0] != "Rattle" or not words[1].startswith("fx_"):
            return ("library", words[1] if words[0] == "Rattle" else words[0], name)
        if words[3] == "declared":
            declared = ".".join(words[4:]).split(".TheVariants")[0]
            return ("type", words[1], declared.replace("TheConstants", name or "TheConstants"))
        found = self.find("%s/%s" % (words[1], words[3]), words[4] if len(words) > 4 else name)
        return ("ours",) + found if found else None

    def meaning(self, module, imports, name, rest):
        """What a name means in a file; `rest` is what follows it behind dots."""
        own = self.find(module, name)
        if own:
            return ("ours",) + own
        if name not in imports:
            return None
        path, there = imports[name]
        return self.target(path, there or (rest.split(".")[1] if rest else None))


def bound_names(text):
    found = BINDER.findall(text)
    return {name for groups in found for group in groups for name in group.split()}


def pattern_names(block):
    """The names in patterns, on the left of an equation and of `↦`: arguments, where they aren't constructors."""
    left = re.split(r" =(?=\s)", block, maxsplit=1)[0]
    patterns = [left] + re.findall(r"[\[|] ([^|↦\[]*) ↦", block)
    return [name for dot, name, rest in NAME.findall(" ".join(patterns)) if not dot and not rest]


def heading_parts(block, kind):
    """A record's field names, and its text without them."""
    if kind != "record":
        return set(), block
    fields = re.findall(r"\n  (?:pub )?([\w']+) :", block)
    return set(fields), re.sub(r"\n  (?:pub )?[\w']+ :", "\n  :", block)


def names_of(text):
    """The names of a text with what follows them behind dots; and its signs."""
    text = re.sub(r'"[^"]*"', '""', LABEL.sub(r"\1", text))
    words = {(name, rest) for dot, name, rest in NAME.findall(text) if not dot}
    return words, set(SIGN.findall(text)) | {name for name, _ in words}


def mixed_uses(library, module, imports, signs):
    """The names with places, as `◌+◌`, whose signs all stand in the text."""
    own = [name for where, name in library.definitions if where == module]
    names = [name for name in list(imports) + own if "◌" in name or not re.match(r"\w", name)]
    used = [name for name in names if all(part in signs for part in name.split("◌") if part)]
    return {library.meaning(module, imports, name, "") for name in used}


def is_argument(library, module, imports, name):
    """Whether a name in a pattern is an argument: no constructor of a `data`, and no name of a library or a type."""
    meaning = library.meaning(module, imports, name, "")
    where = imports[name][0] if name in imports else module
    owned = (re.sub(r"Rattle\.(\w+)\.specs\.(\w+)", r"\1/\2", where), name) in library.owner
    capital = name[0].isupper() and meaning
    return not (owned or capital or meaning and meaning[0] == "library")


def uses_of_block(library, definition, block, doubts):
    """What one block of a definition, its type or an equation, speaks of."""
    module, imports = definition.module, library.imports[definition.module]
    first = block == definition.blocks[0]
    fields, text = heading_parts(block, definition.kind if first else None)
    left = [] if first else pattern_names(block)
    bound = fields | bound_names(text) | {n for n in left if is_argument(library, module, imports, n)}
    words, signs = names_of(text)
    found = mixed_uses(library, module, imports, signs)
    for name, rest in words:
        meaning = library.meaning(module, imports, name, rest)
        if name in KEYWORDS or name == definition.name:
            continue
        if name in bound:
            if meaning:
                doubts.append("%s/%s: `%s` is bound here" % (module, definition.name, name))
        elif meaning is None:
            doubts.append("%s/%s: nothing explains `%s`" % (module, definition.name, name))
        else:
            found.add(meaning)
    return found


def uses_of(library, definition, doubts):
    return set().union(*(uses_of_block(library, definition, block, doubts) for block in definition.blocks)) - {None}
