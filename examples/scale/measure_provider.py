#!/usr/bin/env python3
"""measure_provider.py [ROUTERS..]

Has once-part cut, audit and verify networks of make_provider.py with 200, 600 and 2,000 routers, or as many as are named, and
`once join` their parts, and prints a line for each: routers, classes, parts, megabytes of the parts' documents, then CPU seconds of
cutting, of all calls of `once audit`, of all calls of `once check`, of `once join` with the most megabytes it had in memory, and of
once-part verify. `once` is the program that ONCE names, else the one that `make once` has built, else the one on the PATH.
"""
import json
import os
import resource
import shutil
import subprocess
import sys
import tempfile

HERE = os.path.dirname(os.path.realpath(__file__))
TOP = os.path.dirname(os.path.dirname(HERE))
PART = shutil.which(os.path.join(TOP, "tools", "once-part")) or "once-part"
BUILT = os.path.join(TOP, "once")
ONCE = os.environ.get("ONCE") or (BUILT if os.path.exists(BUILT) else "once")


def seconds(*words):
    """Runs a program that must end with 0; returns the CPU seconds of it and of those that it ran."""
    before = resource.getrusage(resource.RUSAGE_CHILDREN)
    ran = subprocess.run(words, capture_output=True, text=True)
    if ran.returncode:
        sys.exit("%s ended with %d: %s" % (" ".join(words), ran.returncode, (ran.stdout + ran.stderr)[-2000:]))
    after = resource.getrusage(resource.RUSAGE_CHILDREN)
    return after.ru_utime + after.ru_stime - before.ru_utime - before.ru_stime


def joined(network, traffic, parts):
    """Has `once` join parts, which must be certified; returns its CPU seconds and the most megabytes that it had in memory."""
    text = parts + ".txt"
    with open(text, "wb") as out:
        subprocess.run([PART, "bundle", parts], stdout=out, check=True)
    with subprocess.Popen([ONCE, "join", network, traffic, text], stdout=subprocess.PIPE) as ran:
        said = ran.stdout.read()
        used = os.wait4(ran.pid, 0)[2]
        ran.returncode = 0
    if said != b"yes\n":
        sys.exit("once join printed %r" % said)
    return used.ru_utime + used.ru_stime, used.ru_maxrss / 1024


def row(routers, folder):
    """The figures of one network."""
    network, traffic, parts = (os.path.join(folder, name) for name in ("network.json", "traffic.json", "parts"))
    seconds(sys.executable, os.path.join(HERE, "make_provider.py"), folder, "--routers", str(routers))
    cut = seconds(PART, "cut", network, traffic, "--to", parts)
    audit = seconds(PART, "audit", parts, "--once", ONCE)
    verify = seconds(PART, "verify", parts, network, traffic, "--once", ONCE)
    with open(os.path.join(parts, "manifest.json"), encoding="utf-8") as file:
        entries = json.load(file)["parts"]
    files = [[os.path.join(parts, one["folder"], name) for name in ("network.json", "traffic.json", "certificate.txt")] for one in entries]
    check = sum(seconds(ONCE, "check", *names) for names in files)
    octets = sum(os.path.getsize(name) for names in files for name in names[:2])
    classes = sum(len(one["classes"]) for one in entries)
    join, memory = joined(network, traffic, parts)
    return routers, classes, len(entries), octets / 1e6, cut, audit - check, check, join, memory, verify


def main():
    if any(not one.isdigit() for one in sys.argv[1:]):
        sys.exit(__doc__)
    print("routers classes parts  MB   cut audit check  join  MB verify")
    for routers in map(int, sys.argv[1:] or ("200", "600", "2000")):
        with tempfile.TemporaryDirectory() as folder:
            print("%7d %7d %5d %3.0f %5.1f %5.1f %5.1f %5.1f %3.0f %6.1f" % row(routers, folder), flush=True)


if __name__ == "__main__":
    main()
