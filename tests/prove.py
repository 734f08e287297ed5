#!/usr/bin/env python3
"""Proves all crates by `rt ci`, and tries the mutants of each crate beside it once the crate is proved.

usage: prove.py [--anew]

Run at the top of the repository. `rt ci` leaves processors idle where crates wait for one another, and where it foresees more memory than
a proof takes. Mutants fill them, at a lower priority, over a copy of the crates' files, with the libraries that `rt ci` keeps on
this machine. What both print is shown, of the mutants when `rt ci` has ended. --anew proves and tries all, also what passed
here before. The exit status is 0 if all crates are proved, their tests pass, and all mutants are refused.
"""
import os
import shutil
import sys
import tempfile

from program import PIPE, WITH_OUTPUT, run, start

HERE = os.path.dirname(os.path.realpath(__file__))
PARTS = ("src", "specs", "proofs", "c", "mutants")
NICE = 19
# What mutants.py says if it left some untried.
UNTRIED = "mutants were not tried"


def copy_crates(room):
    """Copies what mutants are tried of."""
    for name in ("crates.txt", "HANDLES"):
        shutil.copy(name, room)
    for crate in os.listdir("crates"):
        for part in PARTS:
            if os.path.isdir(f"crates/{crate}/{part}"):
                shutil.copytree(f"crates/{crate}/{part}", f"{room}/crates/{crate}/{part}")


def start_mutants(room, anew, said):
    """Starts the trials of mutants, which go on until their standard input ends and no more are ready."""
    words = [sys.executable, f"{HERE}/mutants.py", "--as-built", "--follow", *anew]
    how = {"stdin": PIPE, "stdout": said, "stderr": WITH_OUTPUT, "folder": room}
    return start(words, preexec_fn=lambda: os.nice(NICE), **how)


def main(arguments):
    if arguments not in ([], ["--anew"]):
        sys.exit(__doc__)
    with tempfile.TemporaryDirectory(prefix="prove-") as room, open(f"{room}/said", "w+", encoding="utf-8") as said:
        copy_crates(room)
        mutants = start_mutants(room, arguments, said)
        try:
            status = run(["rt", "ci", *arguments], seconds=None, stdout=None, stderr=None).returncode
        finally:
            mutants.stdin.close()
            tried = mutants.wait()
        said.seek(0)
        text = said.read()
        print(text, end="", flush=True)
    if UNTRIED in text and not status:
        # (where `rt ci` keeps nothing, its libraries are in out/ now)
        tried = run([sys.executable, f"{HERE}/mutants.py", "--as-built"], seconds=None, stdout=None, stderr=None).returncode
    return 1 if status or tried else 0


if __name__ == "__main__":
    sys.exit(main(sys.argv[1:]))
