"""Writes copies of a crate in which functions have wrong bodies, on twins or in place.

What has been proved may stand by its statement: a hole in place of its proof, and a body that never returns in place of its
own. So a check of the copy takes what a wrong body calls by its contract, and doesn't prove it again.
"""
import json
import os
import re
import shutil

from mutation.edits import module_of, proof_paths, read, sources
from mutation.texts import blanked, closing, functions

MARK = "_twin_"
# What keeps the prover from trying tactics at a function's goals, and how a function names tactics of its own.
WITHOUT_TACTICS = "#[tactic(none)]\n"
TACTIC = re.compile(r"#\[tactic(?=\()")


class Copies:
    """Of a crate; `proved` are the functions that have been proved, by their paths below proofs/."""

    def __init__(self, rtlib, crate, proved):
        self.rtlib, self.crate, self.proved = rtlib, crate, list(proved)

    def write(self, room, parts, kept, with_own_bodies=False):
        """Writes a copy in which the parts have wrong bodies, or their own. The functions `kept` and those changed in place are
        to be proved; all others that have been proved stand by their statements. The prover tries nothing of itself at parts whose
        goals are tried alone."""
        folder = self.crate.folder
        for it in self.rtlib.PARTS:
            if os.path.isdir(f"{folder}/{it}"):
                shutil.copytree(f"{folder}/{it}", f"{room}/{it}")
        for it in parts:
            if it.has_twin():
                copy_proofs(self.crate, room, it)
        kept = {*kept, *((it.path, it.function.key) for it in parts if not it.has_twin())}
        stated = [it for it in self.proved if it not in self.paths_of(kept)]
        for at in stated:
            write_hole(room, self.crate.name, at)
        for path in sources(folder):
            text = read(f"{folder}/{path}")
            if MARK in text:
                self.rtlib.stop(f"{path} has the text {MARK} of its own")
            changes = [change_of(it, text, with_own_bodies) for it in parts if it.path == path]
            changes += [(it.opens, it.end, "{ unreachable!() }", None) for it in self.emptied(path, text, stated)]
            with open(f"{room}/{path}", "w", encoding="utf-8") as it:
                it.write(text_with(text, changes))

    def paths_of(self, keys):
        """Returns the paths below proofs/ where the functions may have theirs that these files and keys tell."""
        return [
            at
            for path in {path for path, _ in keys}
            for it in functions(read(f"{self.crate.folder}/{path}"))
            if (path, it.key) in keys
            for at in proof_paths(self.crate.folder, path, it)
        ]

    def emptied(self, path, text, stated):
        """Returns the functions of the file that are stated and can have a body that never returns."""
        for it in functions(text):
            is_stated = any(at in stated for at in proof_paths(self.crate.folder, path, it))
            if is_stated and it.can_be_emptied(text):
                yield it


def proved_in(crate):
    """Returns the paths below proofs/ of the functions that the crate's built library has, less closures, cycles of calls and what
    traits only declare. Only a proved crate has a library; where it keeps statements alone, their names begin with `part/`."""
    rows = read(f"{crate.rlib}/toolchain/checked.json").split("\n")
    names = {json.loads(it)[0].removeprefix("part/") for it in rows if it.startswith("[")}
    front, end = f"Rattle-{crate.name}-proofs.", ".Code"
    for it in sorted(it for it in names if it.startswith(front) and it.endswith(end)):
        module = it[: -len(end)]
        at = module[len(front) :].split(".")
        is_declared = f"{module}.Statement" in names and f"{module}.Met" not in names
        if "fn" not in at and "+" not in module and not is_declared:
            yield at


def write_hole(room, crate, at):
    folder = f"{room}/proofs/{'/'.join(at)}"
    os.makedirs(folder, exist_ok=True)
    for it in ("Answers.antt", "Invariants.antt"):
        if os.path.exists(f"{folder}/{it}"):
            os.remove(f"{folder}/{it}")
    module, name = ".".join(["Rattle", crate, "proofs", *at]), f"{at[-1]}_spec"
    with open(f"{folder}/Proof.antt", "w", encoding="utf-8") as it:
        it.write(f"use {module}.Statement.{{statement}}\n\npub {name} : {{M : Type 1}} → statement M\n{name} = ?\n")


def change_of(part, text, with_own_body):
    """Returns where the part's change of the text begins and ends, what stands there then, and the part."""
    function = part.function
    body = text[function.opens : function.end] if with_own_body else part.body
    if not part.has_twin():
        return function.start, function.end, text[function.start : function.opens] + body, part
    front, head = "", text[function.start : function.named]
    if part.alone:
        front, head = WITHOUT_TACTICS, without_tactic(head)
    tail = text[function.named + len(function.name) : function.opens]
    return function.end, function.end, f"\n{front}{head}{part.twin_name(MARK)}{tail}{body}", part


def without_tactic(head):
    """Returns the head of a function without its own line `#[tactic(..)]`, of which a function may have one."""
    found = TACTIC.search(blanked(head))
    if not found:
        return head
    end = closing(blanked(head), found.start() + 1)
    return head[: found.start()] + head[end:].lstrip()


def text_with(text, changes):
    """Returns the text with these changes; each part learns the lines where its own stands."""
    made, at = "", 0
    for begin, end, piece, part in sorted(changes, key=lambda it: it[:2]):
        made += text[at:begin]
        first = made.count("\n") + 1
        made, at = made + piece, end
        if part:
            part.lines = first, first + piece.count("\n")
    return made + text[at:]


def copy_proofs(crate, room, part):
    """Copies the proof files of the part's function for its twin, with the twin's name in place of the function's."""
    name, twin = part.function.name, part.twin_name(MARK)
    for at in part.folders():
        was, to = f"{crate.folder}/proofs/{'/'.join(at)}", f"{room}/proofs/{'/'.join([*at[:-1], twin])}"
        if not os.path.isdir(was):
            continue
        shutil.copytree(was, to)
        module = re.escape(".".join(["Rattle", crate.name, "proofs", *at]))
        for folder, _, names in os.walk(to):
            for file in (f"{folder}/{it}" for it in names):
                text = re.sub(rf"({module})(?![\w-])", lambda it: it[1][: -len(name)] + twin, read(file))
                text = re.sub(rf"\b{name}_spec\b", f"{twin}_spec", text)
                with open(file, "w", encoding="utf-8") as it:
                    it.write(text)
