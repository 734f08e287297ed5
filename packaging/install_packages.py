#!/usr/bin/env python3
"""Installs the Debian packages of a list that are missing, where that is possible.

usage: install_packages.py LIST

LIST has a package a line; `#` begins a comment. As root, with apt-get on the PATH, the missing ones are installed, unless
INSTALL=no is in the environment. Prints which could not be installed and why, and exits with status 0 all the same: the
tests that need them report that they did not run.
"""
import os
import shutil
import subprocess
import sys


def listed(path):
    with open(path, encoding="utf-8") as file:
        rows = (line.partition("#")[0].strip() for line in file)
        return [it for it in rows if it]


def is_installed(package):
    words = ["dpkg-query", "-W", "-f=${db:Status-Status}", package]
    return subprocess.run(words, stdout=subprocess.PIPE, stderr=subprocess.DEVNULL, text=True).stdout == "installed"


def why_not():
    """Returns why nothing can be installed here, or None."""
    if os.environ.get("INSTALL") == "no":
        return "INSTALL=no"
    if os.geteuid():
        return "this is not root"
    return None if shutil.which("apt-get") else "there is no apt-get"


def install(packages):
    """Installs packages, after an update of the lists where they are not known; returns whether that worked."""
    words = ["apt-get", "install", "-y", "--no-install-recommends", *packages]
    environment = {**os.environ, "DEBIAN_FRONTEND": "noninteractive"}
    how = {"env": environment, "stdin": subprocess.DEVNULL, "stdout": subprocess.PIPE, "stderr": subprocess.STDOUT, "text": True}
    for before in ([], ["apt-get", "update"]):
        if before:
            subprocess.run(before, **how)
        ran = subprocess.run(words, **how)
        if ran.returncode == 0:
            return True
    print(ran.stdout[-2000:])
    return False


def main(path):
    if not shutil.which("dpkg-query"):
        print("packages: no Debian system: the tests say which programs they lack")
        return
    missing = [it for it in listed(path) if not is_installed(it)]
    if not missing:
        return
    why = why_not() or (None if install(missing) else "apt-get failed")
    print(f"packages: {'installed' if not why else f'not installed, as {why}:'} {' '.join(missing)}", flush=True)


if __name__ == "__main__":
    if len(sys.argv) != 2:
        sys.exit(__doc__)
    main(sys.argv[1])
