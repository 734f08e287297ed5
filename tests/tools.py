#!/usr/bin/env python3
"""tools.py PROGRAM: runs `once-import table` and `once-import exporter`, and has the program read what they write.

Each folder of tests/tools is a case, run in a copy:

  words         the command and its arguments; TABLES is the folder tools/examples
  status        its exit status
  stderr        what it must print on standard error (no file: nothing)
  stdout.json   the document that it must print (no file: nothing)
  network.json, traffic.json
                the documents that it must write as made.json and made-traffic.json (no file: none)
  expects       another case, whose documents these are

Documents are compared as values. Each must be accepted by `lint`; an audit of what the tables of tools/examples describe must answer
with a certificate to which `check` says yes. What a network of pmacctd totals, of the stream that pmacctd sent and of the capture that
it was sent for, must be what the rows of tests/rows with that stream expect. Prints a line for each fault, and last
`N passed, M failed`.
"""
import glob
import json
import os
import shlex
import shutil
import sys
import tempfile

from program import run

TOP = os.path.dirname(os.path.dirname(os.path.abspath(__file__)))
TOOLS = os.path.join(TOP, "tools")
TABLES = os.path.join(TOOLS, "examples")
CASES = os.path.join(TOP, "tests", "tools")
MADE = {"network.json": "made.json", "traffic.json": "made-traffic.json"}


def text_of(folder, name, default=""):
    path = os.path.join(folder, name)
    if not os.path.exists(path):
        return default
    with open(path, encoding="utf-8") as file:
        return file.read()


def value_of(text):
    """The value of a document, or nothing where there is no text."""
    return json.loads(text) if text else None


def run_in(words, folder):
    return run(words, folder, text=True)


def tool(words, folder):
    """Runs a command of once-import; Python keeps no compiled files beside it."""
    words = [word.replace("TABLES", TABLES) for word in words]
    return run_in([sys.executable, "-B", os.path.join(TOOLS, "once-import"), *words], folder)


def faults_of(program, case, folder):
    """What is wrong with a case that runs in this folder."""
    ran = tool(shlex.split(text_of(case, "words")), folder)
    if ran.returncode != int(text_of(case, "status")):
        yield "status %d" % ran.returncode
    if ran.stderr != text_of(case, "stderr"):
        yield "printed %r on standard error" % ran.stderr[:2000]
    wanted = value_of(text_of(case, "stdout.json"))
    if value_of(ran.stdout) != wanted:
        yield "printed %s" % ran.stdout[:2000]
    if wanted is not None:
        with open(os.path.join(folder, "made.json"), "w", encoding="utf-8") as file:
            file.write(ran.stdout)
    expected = os.path.join(CASES, text_of(case, "expects", os.path.basename(case)).strip())
    for name, made in MADE.items():
        found, text = value_of(text_of(folder, made)), text_of(expected, name)
        if (text or wanted is None) and found != value_of(text):
            yield "wrote %s as %s" % (json.dumps(found)[:2000], name)
    files = [made for made in MADE.values() if os.path.exists(os.path.join(folder, made))]
    if files and run_in([program, "lint", *files], folder).stdout != "ok\n":
        yield "`lint` doesn't say ok of what it wrote"


def faults_of_table(program, table, folder):
    """What is wrong with the documents that a table of tools/examples describes."""
    files = list(MADE.values())
    ran = tool(["table", table, *files], folder)
    if ran.returncode or ran.stderr:
        yield "status %d and %r" % (ran.returncode, ran.stderr[:2000])
        return
    answer = run_in([program, "audit", *files], folder)
    with open(os.path.join(folder, "answer"), "w", encoding="utf-8") as file:
        file.write(answer.stdout)
    if run_in([program, "check", *files, "answer"], folder).stdout != "yes\n":
        yield "audited with %r" % answer.stdout[:200]


def faults_of_stream(program, row, folder):
    """What is wrong with the network of pmacctd that reports by the key of a row, over the row's stream and capture."""
    with open(os.path.join(row, "network.json"), encoding="utf-8") as file:
        key = ",".join(field["ieName"] for field in json.load(file)["report"]["key"])
    ran = tool(["exporter", "--key", key, "pmacctd", "-N", "-i", "eth0", "-P", "nfprobe"], folder)
    crossing = {"device": "meter", "interface": "eth0", "direction": "ingress"}
    traffic = json.dumps({"classes": [{"name": "all", "paths": [[crossing]]}]})
    for name, text in (("network.json", ran.stdout), ("traffic.json", traffic)):
        with open(os.path.join(folder, name), "w", encoding="utf-8") as file:
            file.write(text)
    wanted = text_of(row, "stdout")
    collected = run_in([program, "collect", "network.json", os.path.join(row, "stream.ipfix")], folder).stdout
    if collected != wanted:
        yield "collected %r" % collected[:2000]
    capture = os.path.join(TOP, "tests", "rows", "stream-of-pmacctd", "capture.pcap")
    metered = run_in([program, "run", "network.json", "traffic.json", capture, "/dev/null"], folder).stdout
    sums = [text.partition("gaps ")[0].partition("skipped ")[0] for text in (metered, wanted)]
    if sums[0] != sums[1]:
        yield "metered %r" % metered[:2000]


def main(program):
    passed = failed = 0
    cases = [(faults_of, path) for path in sorted(glob.glob(CASES + "/*"))]
    cases += [(faults_of_table, path) for path in sorted(glob.glob(TABLES + "/*.table"))]
    cases += [(faults_of_stream, path) for path in sorted(glob.glob(TOP + "/tests/rows/stream-of-pmacctd*"))]
    for faults, path in cases:
        with tempfile.TemporaryDirectory() as made:
            folder = os.path.join(made, "case")
            shutil.copytree(path, folder) if faults is faults_of else os.mkdir(folder)
            for name in MADE:
                if os.path.exists(os.path.join(folder, name)):
                    os.remove(os.path.join(folder, name))
            found = list(faults(program, path, folder))
        passed, failed = passed + (not found), failed + bool(found)
        for fault in found:
            print("%s: %s" % (os.path.relpath(path, TOP), fault))
    print("%d passed, %d failed" % (passed, failed))
    return 1 if failed else 0


if __name__ == "__main__":
    if len(sys.argv) != 2:
        sys.exit(__doc__)
    sys.exit(main(os.path.abspath(sys.argv[1])))
