"""Builds the program without a proof, with checks of bounds, overflows and addresses, as out/unproved/once.

usage: packaging/build_unproved.py [--to FILE] [FOLDER]

FOLDER is a checkout (the current folder by default). The program is the one that `rt try` compiles and runs: while `rt try` runs it,
its file gets a second name. It serves to try a change over the rows before any proof, and takes a minute or two. A program that
is as new as all sources is kept. Exit statuses: 0 built, 1 refused, with what `rt try` says.
"""
import argparse
import os
import tempfile
import time

from program import WITH_OUTPUT, start

SECONDS = 900
# The fewest octets that the program can have: smaller files are parts of it.
LEAST = 1_000_000


def newest_source(top):
    """Returns the time of the newest file of crates' src/ folders and of crates.txt."""
    times = [os.stat(f"{top}/crates.txt").st_mtime]
    for crate in os.listdir(f"{top}/crates"):
        for at, _, names in os.walk(f"{top}/crates/{crate}/src"):
            times += [os.stat(at).st_mtime, *(os.stat(f"{at}/{it}").st_mtime for it in names)]
    return max(times)


def programs_in(folder):
    """Returns the executable programs in a folder, by their inodes."""
    found = {}
    for at, _, names in os.walk(folder):
        for path in (f"{at}/{it}" for it in names if it == "program"):
            try:
                with open(path, "rb") as file:
                    is_elf = file.read(4) == b"\x7fELF"
                there = os.stat(path)
            except OSError:
                continue
            if is_elf and there.st_size >= LEAST and there.st_mode & 0o100:
                found[there.st_ino] = path
    return found


def build(top, to):
    """Builds the program; returns whether it is there, and what `rt try` printed."""
    folder = f"{top}/crates/once"
    os.makedirs(os.path.dirname(to), exist_ok=True)
    with tempfile.TemporaryDirectory(prefix=".build-", dir=os.path.dirname(to)) as room, open(f"{room}/said", "w+b") as said:
        environment, is_there = {**os.environ, "TMPDIR": room}, False
        with open(f"{folder}/stdin", "rb") as given:
            ran = start(["rt", "try"], folder, stdin=given, stdout=said, stderr=WITH_OUTPUT, env=environment)
        ends = time.monotonic() + SECONDS
        while ran.poll() is None and time.monotonic() < ends:
            for path in programs_in(room).values():
                try:
                    os.link(path, f"{room}/once")
                    is_there = True
                except OSError:
                    pass
            time.sleep(0.02)
        ran.kill()
        said.seek(0)
        text = said.read().decode(errors="replace")
        is_right = is_there and ran.wait() == 0
        if is_right:
            os.chmod(f"{room}/once", 0o755)
            os.replace(f"{room}/once", to)
        return is_right, text


def main(arguments):
    parser = argparse.ArgumentParser(usage="build_unproved.py [--to FILE] [FOLDER]")
    parser.add_argument("--to")
    parser.add_argument("folder", nargs="?", default=".")
    given = parser.parse_args(arguments)
    top = os.path.abspath(given.folder)
    to = os.path.abspath(given.to or f"{top}/out/unproved/once")
    if os.path.exists(to) and os.stat(to).st_mtime > newest_source(top):
        return 0
    is_right, said = build(top, to)
    if not is_right:
        print(said[-4000:])
    return 0 if is_right else 1

