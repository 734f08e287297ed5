"""Reads the items of a Rattle text that a wrong body changes: its functions, with the impl that holds each, and its
constants."""
import functools
import re

PAIRS = {"(": ")", "[": "]", "{": "}"}
# What stands before a brace that opens a clause and no body.
CLAUSE = re.compile(r"(?:\b(?:requires|ensures)\*?(?:\s+\w+)?|\bghost\s+\w+\s*:)\s*\Z")


# Comments, raw strings, strings and character literals.
SKIPPED = re.compile(
    r"""//[^\n]*|/\*.*?(?:\*/|\Z)"""
    r"""|(?<!\w)b?r(?P<hashes>\#*)".*?(?:"(?P=hashes)|\Z)|"(?:\\.|[^"\\])*(?:"|\Z)"""
    r"""|'(?:\\x[0-9a-fA-F]{2}|\\u\{[^}]*\}|\\[^\n]|[^\\'\n])'""",
    re.S,
)


@functools.lru_cache(maxsize=1024)
def blanked(text):
    """Returns the text with comments, strings and character literals blanked, each character at its place."""
    return SKIPPED.sub(lambda found: re.sub(r"[^\n]", " ", found[0]), text)


def closing(text, at):
    """Returns the place behind the bracket that closes the one at this place."""
    stack = []
    while at < len(text):
        if text[at] in PAIRS:
            stack.append(PAIRS[text[at]])
        elif stack and text[at] == stack[-1]:
            stack.pop()
            if not stack:
                return at + 1
        at += 1
    return len(text)


class Block:
    """An impl or a trait: `head` is its line up to the brace, `of` what follows `impl` and its type parameters."""

    def __init__(self, word, head):
        self.word, self.head = word, head
        self.of = re.split(r"\bwhere\b", re.sub(r"\Aimpl\s*(<(?:[^<>]|<[^<>]*>)*>)?\s*", "", head))[0]
        self.trait, is_of_trait, own = f" {self.of}".rpartition(" for ")
        self.own_type = own.strip() if is_of_trait else self.of.strip()
        self.is_inherent = word == "impl" and not is_of_trait

    def name(self):
        """Returns the name that a check gives the type, with that of the trait and its types behind it."""
        given = re.search(r"<(.*)>", self.trait)
        types = [type_name(it) for it in given[1].split(",") if not it.strip().startswith("'")] if given else []
        return "".join([type_name(self.own_type), type_name(self.trait), *types])


class Function:
    """A function with a body: its head begins at `start`, its name at `named`, its body at `opens`, and it ends at `end`."""

    def __init__(self, name, start, named, opens, end, block):
        self.name, self.start, self.named, self.opens, self.end, self.block = name, start, named, opens, end, block
        self.key, self.body = None, ""

    def names(self, name):
        """Returns whether this name stands in the body."""
        return bool(re.search(rf"\b{name}\b", self.body))

    def is_in(self, of_type, name):
        """Returns whether this is the function of this name, of this type where one is given."""
        own = type_name(self.block.own_type) if self.block else ""
        return self.name == name and (not of_type or own == of_type)

    def calls_itself(self, text):
        front = r"(?<![.:\w])" if self.block is None else r"\b(?:self\s*\.|Self\s*::)\s*"
        return bool(re.search(rf"{front}{self.name}\s*(?:::<[^>]*>)?\(", blanked(text[self.opens : self.end])))

    def can_be_emptied(self, text):
        """Returns whether a body that never returns may stand in place of its own: it has no closures, which have names of
        their own, its result's type is named, and it isn't for constants."""
        head, body = text[self.start : self.opens], blanked(text[self.opens : self.end])
        is_plain = not re.search(r"->[^{]*\bimpl\b|\bconst\s+(?:unsafe\s+)?fn\b", head)
        return is_plain and not re.search(r"(?:[(,=&]|\bmove|\breturn)\s*\|", body)

    def stands_free(self):
        """Returns whether it stands free or in an impl of its type, so that another may stand beside it."""
        return self.block is None or self.block.is_inherent


def type_name(text):
    """Returns the name that a check gives a type in the names that it makes, for the plain ones."""
    text = text.strip()
    borrow = re.match(r"&\s*('\w+\s+)?(mut\s+)?", text)
    front = ("RefMut" if borrow[2] else "Ref") if borrow else ""
    text = text[borrow.end() :] if borrow else text
    last = re.match(r"(?:\w+\s*::\s*)*(\w+)", text)
    return front + (last[1] if last and not (front and re.fullmatch(r"[A-Z]", last[1])) else "")


@functools.lru_cache(maxsize=1024)
def functions(text):
    """Returns the functions that have a body, less those inside another function, as a tuple."""
    bare, found, counts, at = blanked(text), [], {}, 0
    blocks = blocks_of(bare)
    for head in re.finditer(r"\bfn\s+(\w+)", bare):
        opens = body_of(bare, head.end()) if head.start() >= at else None
        if opens is None:
            continue
        start = max(bare.rfind(it, 0, head.start()) for it in "{};") + 1
        block = next((it for a, b, it in reversed(blocks) if a <= head.start() < b), None)
        made = Function(head[1], start, head.start(1), opens, closing(bare, opens), block)
        key = (block.head if block else "", head[1])
        counts[key] = counts.get(key, 0) + 1
        made.key, made.body = (*key, counts[key]), bare[opens : made.end]
        found.append(made)
        at = made.end
    return tuple(found)


def blocks_of(bare):
    """Returns where each impl and trait begins and ends, with what it is."""
    found = []
    for head in re.finditer(r"(?m)^[ \t]*(?:pub(?:\([^)]*\))?\s+)?(?:unsafe\s+)?(impl|trait)\b", bare):
        opens, ends = bare.find("{", head.end()), bare.find(";", head.end())
        if opens < 0 or 0 <= ends < opens:
            continue
        line = " ".join(bare[head.start(1) : opens].split())
        found.append((head.end(), closing(bare, opens), Block(head[1], line)))
    return found


def body_of(bare, at):
    """Returns where the body of the function opens whose name ends here, or None where it has none."""
    begin = at
    while at < len(bare) and bare[at] not in ";}":
        if bare[at] == "{" and not CLAUSE.search(bare[begin:at]):
            return at
        at = closing(bare, at) if bare[at] in PAIRS else at + 1
    return None


def contracts(text, found):
    """Returns the heads of the functions with their clauses, and the other ghost lines of the text."""
    heads = sorted((*it.key, " ".join(text[it.named : it.opens].split())) for it in found)
    return heads, [" ".join(it.split()) for it in re.findall(r"(?m)^\s*ghost\b.*$", text)]


def skeleton(text, found):
    """Returns the text without the functions' bodies."""
    parts, at = [], 0
    for it in found:
        parts.append(text[at : it.opens])
        at = it.end
    return "{}".join([*parts, text[at:]])


def constants(text):
    """Returns the text of each constant, by its name."""
    bare, found = blanked(text), {}
    for head in re.finditer(r"\b(?:pub(?:\([^)]*\))?\s+)?(?:const|static)\s+([A-Z]\w*)\s*:", bare):
        end = head.end()
        while end < len(bare) and bare[end] != ";":
            end = closing(bare, end) if bare[end] in PAIRS else end + 1
        found[head[1]] = text[head.start() : end + 1]
    return found
