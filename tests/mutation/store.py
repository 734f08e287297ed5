"""Keeps verdicts on mutants on this machine, so that a later run tries only what changed.

A verdict is kept under a digest of everything that bears on it: the edit, every file of its crate and of the crates below it,
the kit, and the scripts that try mutants. Only `refused` is kept. An entry never goes stale: whatever changes gives another
digest. Nothing of this lies in a checkout.
"""
import hashlib
import json
import os
import sys
import tempfile

TESTS = os.path.dirname(os.path.dirname(os.path.realpath(__file__)))
# What a verdict on a crate rests on, besides its line of crates.txt.
PARTS = ("src", "specs", "proofs", "c")
NAME = "once-kept"


def store_folder(kit):
    """Returns the folder of what gates on this machine keep: beside the kit, where `rt ci` keeps its own results, or else below
    the user's cache directory. Returns None where neither can be written."""
    cache = os.environ.get("XDG_CACHE_HOME") or os.path.expanduser("~/.cache")
    for at in (os.path.join(os.path.dirname(kit), NAME), os.path.join(cache, NAME)):
        try:
            os.makedirs(at, 0o700, exist_ok=True)
        except OSError:
            continue
        if os.access(at, os.W_OK) and os.stat(at).st_uid == os.geteuid():
            return at
    return None


def digest(*parts):
    """Returns the digest of values, texts or octets."""
    made = hashlib.sha256()
    for it in parts:
        it = it if isinstance(it, bytes) else repr(it).encode()
        made.update(b"%d:" % len(it) + it)
    return made.hexdigest()


def digest_of_files(folder, names):
    """Returns the digest of files and folders below a folder, by their paths, kinds and octets."""
    made = []
    for name in names:
        path = os.path.join(folder, name)
        walked = os.walk(path) if os.path.isdir(path) else [(folder, [], [name] if os.path.isfile(path) else [])]
        for at, folders, files in walked:
            folders[:] = sorted(it for it in folders if it not in ("out", "__pycache__"))
            for file in sorted(os.path.join(at, it) for it in files if not it.endswith(".pyc")):
                with open(file, "rb") as it:
                    made.append((os.path.relpath(file, folder), hashlib.sha256(it.read()).hexdigest()))
    return digest(made)


def digest_of_kit(rt):
    """Returns the kit's identity: of the texts that name it and of each file that a check reads."""
    own = getattr(rt, "kit_sum", None)
    return digest(own() if own else digest_of_files(rt.KIT, ("KIT-ID", "WHAT", "bin", "toolchain", "logic_built", "rlibs")))


def digest_of_scripts(folder=TESTS):
    """Returns the digest of the scripts that try mutants, and of the Python that runs them."""
    return digest(digest_of_files(folder, ("kit.py", "mutation")), sys.version_info[:2])


class Digests:
    """The digests of crates and mutants of a checkout."""

    def __init__(self, rt, root, scripts=TESTS):
        with_handles = os.path.isfile(f"{root}/HANDLES")
        handles = digest_of_files(root, ["HANDLES"]) if with_handles else ""
        self.base = digest(digest_of_kit(rt), digest_of_scripts(scripts), handles)
        self.seen = {}

    def of_crate(self, crate):
        """Returns the digest of a crate with the crates below it, the kit and the scripts."""
        if crate.name not in self.seen:
            below = [(it.name, self.of_crate(it)) for it in crate.deps]
            own = repr(crate.said), sorted(crate.of_kit), digest_of_files(crate.folder, PARTS)
            self.seen[crate.name] = digest(self.base, crate.name, own, below)
        return self.seen[crate.name]

    def of_mutant(self, crate, edit):
        return digest(self.of_crate(crate), edit.sum)


class Store:
    """Entries by their digests: a text each, which is kept whole or not at all."""

    def __init__(self, folder, kind, is_anew=False):
        self.folder, self.is_anew = folder and os.path.join(folder, kind), is_anew

    def get(self, name):
        """Returns the entry of this digest, or None."""
        if not self.folder or self.is_anew:
            return None
        try:
            with open(os.path.join(self.folder, name), encoding="utf-8") as it:
                found = json.load(it)
            return found["text"] if found["digest"] == name and isinstance(found["text"], str) else None
        except (OSError, ValueError, KeyError, TypeError):
            return None

    def put(self, name, text):
        if not self.folder:
            return
        try:
            os.makedirs(self.folder, exist_ok=True)
            with tempfile.NamedTemporaryFile("w", dir=self.folder, prefix=".new-", delete=False, encoding="utf-8") as it:
                json.dump({"digest": name, "text": text}, it)
            os.replace(it.name, os.path.join(self.folder, name))
        except OSError:
            # (a full disk, say: the next run tries this again)
            pass
