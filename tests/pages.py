#!/usr/bin/env python3
"""pages.py PROGRAM: runs the commands of pages for users as they are written, and compares what they print.

Blocks that are indented by four spaces and begin with `$ ` are run, those of one heading in one session from the top of the
repository: each line after `$ `, with PROGRAM as `once`, tools/once-import, once-mend, once-part and once-report; what it prints must be the lines that follow. Blocks
without `$ ` are about a network of the reader's. Commands with jq are left out if there is none. Prints a line for each that differs, and last how many passed.
"""
import os
import re
import shutil
import sys
import tempfile

from program import WITH_OUTPUT, run
from verdict import not_run

TOP = os.path.dirname(os.path.dirname(os.path.abspath(__file__)))
PAGES = ["README.md", "docs/GUIDE.md", "tools/README.md"]
# What a reader does by hand after a sentence, as a command.
BY_HAND = {
    "Or remove the second observation point": """python3 - <<'END'
import json
document = json.load(open("network.json"))
del document["devices"][0]["config"]["ietf-ipfix-psamp:ipfix"]["observationPoint"][1]
json.dump(document, open("network.json", "w"))
END""",
    "To say so, add the line `exempt = true`": """python3 - <<'END'
text = open("network.toml").read()
for name in ("down", "out at gw-3 eth0", "out at gw-3 eth0 over IPv6"):
    text = text.replace('name = "%s"\\n' % name, 'name = "%s"\\nexempt = true\\n' % name)
open("network.toml", "w").write(text)
END""",
}


def sessions(text):
    """The command lines of a page, each with what it should print; one list for each heading."""
    for heading in re.split(r"^## .*\n", text, flags=re.M)[1:]:
        found = []
        for block in re.split(r"\n\s*\n", heading):
            found += [(edit, "") for sentence, edit in BY_HAND.items() if block.startswith(sentence)]
            lines = [line[4:] for line in block.split("\n") if line.startswith("    ")]
            if lines and lines[0].startswith("$ "):
                for part in re.split(r"^\$ ", "\n".join(lines) + "\n", flags=re.M)[1:]:
                    command, _, printed = part.partition("\n")
                    found.append((command, printed))
        yield found


def main(program):
    passed = failed = 0
    with tempfile.TemporaryDirectory() as made:
        os.symlink(os.path.abspath(program), made + "/once")
        for name in ("once-import", "once-mend", "once-part", "once-report"):
            os.symlink(os.path.join(TOP, "tools", name), f"{made}/{name}")
        os.mkdir(made + "/tmp")
        for page in PAGES:
            with open(os.path.join(TOP, page), encoding="utf-8") as file:
                text = file.read()
            for session in sessions(text):
                script = "".join("%s\nprintf '\\0'\n" % command for command, _ in session).replace("/tmp/", made + "/tmp/")
                environment = {**os.environ, "PATH": made + ":" + os.environ["PATH"]}
                ran = run(["bash", "-c", script], TOP, seconds=600, stderr=WITH_OUTPUT, text=True, env=environment)
                for (command, wanted), found in zip(session, ran.stdout.split("\0")):
                    if "| jq " in command and not shutil.which("jq"):
                        not_run("%s: %s" % (page, command), "there is no jq (Debian's package jq)")
                        continue
                    passed, failed = passed + (found == wanted), failed + (found != wanted)
                    if found != wanted:
                        print("%s: %s: printed %r instead of %r" % (page, command, found, wanted))
    print("pages: %d passed, %d failed" % (passed, failed))
    return 1 if failed else 0


if __name__ == "__main__":
    if len(sys.argv) != 2:
        sys.exit(__doc__)
    sys.exit(main(sys.argv[1]))
