"""What the program says of documents: what rows expect, or what `lint` answers if that does not show it."""
import os
import re
import shlex

from program import run

TAKEN, UNREAD, ASK = "ok", "unread", "ask"
WITH_TRAFFIC = ("audit", "check", "confirm", "replay", "run")


def octets_of(folder, name):
    path = os.path.join(folder, name)
    if not os.path.isfile(path):
        return b""
    with open(path, "rb") as file:
        return file.read()


def documents_of(row):
    """Returns the octets of a row's network and traffic, empty if it has none."""
    bundle = octets_of(row, "stdin").split(b"\n%%\n")
    if len(bundle) > 2:
        return bundle[0].partition(b"\n")[2], bundle[1]
    words = shlex.split(octets_of(row, "words").decode())
    if not words or words[0] not in WITH_TRAFFIC + ("lint", "collect"):
        return b"", b""
    files = [word for word in words[1:3] if word.endswith(".json")]
    texts = [octets_of(row, file) for file in files] + [b"", b""]
    return texts[0], texts[1]


def of_row(row):
    """Returns what a row shows of its network and its traffic: taken, a number, unread, or that the program has to be asked."""
    answer = octets_of(row, "stdout").decode(errors="replace")
    status = octets_of(row, "status").decode().strip()
    refused = re.match(r"refused ([123]\d\d) ?(.*)", answer)
    if not refused:
        return (TAKEN, TAKEN) if status in ("0", "1", "2", "3") else (ASK, ASK)
    number, place = int(refused[1]), refused[2]
    if number >= 300 or place.startswith("/classes"):
        return TAKEN, number
    if number >= 200 or re.match(r"/(devices|links|report)", place):
        return number, UNREAD
    return ASK, ASK


def lint(program, *files):
    """Returns what `lint` says: taken, or the number of the refusal."""
    ran = run([program, "lint", *files], text=True)
    refused = re.match(r"refused (\d+)", ran.stdout)
    if refused:
        return int(refused[1])
    return TAKEN if ran.stdout == "ok\n" else "status %d and %r" % (ran.returncode, ran.stdout[:80])


def asked(program, folder, network, traffic):
    """Returns what the program says of a network and of a traffic declaration, which are written into the folder."""
    files = []
    for name, octets in (("network.json", network), ("traffic.json", traffic)):
        if octets:
            files.append(os.path.join(folder, name))
            with open(files[-1], "wb") as file:
                file.write(octets)
    said = lint(program, files[0])
    if said != TAKEN or not traffic:
        return said, UNREAD
    return said, lint(program, *files)
