"""The libraries that mutants are tried over: those that the crates below were proved to."""
import hashlib
import json
import os


class Libraries:
    """Finds out whether the libraries in crates' out/ folders are those that a proof of the present sources gave.

    A library is that if `rt check` stamped it with its sources, or if it equals what `rt ci` keeps of the same sources on this machine.
    What `rt ci` keeps is taken where a crate has no library.
    """

    def __init__(self, rt, root, crates):
        self.kept, self.found = None, {}
        if hasattr(rt, "Kept") and hasattr(rt, "handles_of"):
            # (the names under which `rt ci` keeps results depend on these)
            rt.Crate.allowed = rt.handles_of(root)
            self.kept = rt.Kept(crates)

    def are_proved(self, crates):
        """Returns whether each of these crates, each after those below it, has a library of its present sources."""
        return all([self.is_proved(it) for it in crates])

    def is_proved(self, crate):
        if crate.name not in self.found:
            self.found[crate.name] = crate.is_built() or self.is_kept(crate)
            if self.kept and os.path.isdir(crate.rlib):
                self.kept.is_built(crate)
        return self.found[crate.name]

    def is_kept(self, crate):
        """Returns whether the crate's library equals what `rt ci` keeps, which is taken if there is none."""
        if not self.kept or not self.kept.at or not all(self.found.get(it.name) for it in crate.below()):
            return False
        key = self.kept.key(crate)
        if not os.path.isdir(crate.rlib):
            return self.kept.give(crate, False, key)
        try:
            with open(f"{self.kept.place(crate, False, key)}/made.json", encoding="utf-8") as it:
                made = json.load(it)
            return all(sum_of(f"{crate.folder}/out/{path}") == wanted for path, wanted in made["files"])
        except (OSError, ValueError, KeyError, TypeError):
            return False


def sum_of(file):
    made = hashlib.sha256()
    with open(file, "rb") as it:
        while piece := it.read(1 << 20):
            made.update(piece)
    return made.hexdigest()
