#!/usr/bin/env python3
"""terminal.py PROGRAM: runs the program as a newcomer does.

Without arguments on a terminal it must print its help and not wait. With arguments that don't parse it must end with status 6, and
say last what to do (`ADVICE`), without the tip that an option is a file's name. With `--explain` it must not wait for a pipe that it has read
to its end, and it must say that a directory is one and that standard input is closed, and not write a link's file over one of
the run's own. The lines of its help must have at most 100 columns, and it must accept the examples there: documents, certificate,
refutation, run, schedule, totals and the lines for a shell.

Prints a line for each fault, and last `N passed, M failed`. The exit status is 1 if something failed.
"""
import json
import os
import pty
import shlex
import shutil
import socket
import struct
import sys
import tempfile
import threading

import rows
from program import DidNotEnd, run
from verdict import report_named

FLAG = "Write %s once, without a value and before any --, after which all arguments are files; it goes with %s."
WORDS = FLAG % ("--explain", "each command")
FORMAT = (
    "Write --format json once, before any --, after which all arguments are files; it goes with each command, and without it the answer is text."
)
PROGRESS = FLAG % ("--progress", "audit, collect and run")
OPTION_OF_ONE = "%s goes with %s alone, after that word and before any --: `once %s`."
LIMIT = OPTION_OF_ONE % ("--limit", "audit", "audit NETWORK TRAFFIC --limit N")
LINKS = OPTION_OF_ONE % ("--links", "run", "run NETWORK TRAFFIC CAPTURE SCHEDULE --links PREFIX")
NUMBER = "Write --limit once, followed by a whole number from 1 to 1000000, as in --limit 20000."
OPTION = (
    "There is no such option. --explain and --format json go with each command, --progress with audit, collect and run, --limit with audit "
    "and --links with run. A file whose name begins with - is named after --, as in `once lint -- -file`."
)
COMMAND = "The first word is a command: `once help` lists them."
AFTER_HELP = "One command follows help, as in `once help check`; `once explain 407` says what a number means."
MISSING = "Write what is missing, in the order of the usage line; `once help COMMAND` says what each is."

# A run over a capture that puts octets on link 1.
RUN_WITH_LINKS = "run-over-a-packet-of-ipv6"

# Arguments that are not accepted, with the advice that is printed for them.
ADVICE = {
    "--explain --explain check n t c": WORDS,
    "check n t c --explain --explain": WORDS,
    "audit n t -- --explain": WORDS,
    "audit -- n t --explain": WORDS,
    "--explian check n t c": WORDS,
    "check n t c --expain": WORDS,
    "check n t c --Explain": WORDS,
    "explain check n t c": "Write the number alone, as in `once explain 407`, or `once explain all`.",
    "lint --explain=yes n": WORDS,
    "audit n t --format yaml": FORMAT,
    "audit n t --format": FORMAT,
    "--format=text lint n": FORMAT,
    "--format json --format json lint n": FORMAT,
    "audit -- n t --format json": FORMAT,
    "audit n t --progress=1": PROGRESS,
    "audit n t --progress --progress": PROGRESS,
    "audit -- n t --progress": PROGRESS,
    "collect n s --progres": PROGRESS,
    "audit n t --limit many": NUMBER,
    "audit n t --limit 0": NUMBER,
    "audit n t --limit 1000001": NUMBER,
    "audit n t --limit -5": NUMBER,
    "audit n t --limit": NUMBER,
    "audit n t --limit 5 --limit 6": NUMBER,
    "audit n t --limt 5": LIMIT,
    "check n t c --limit 5": LIMIT,
    "--limit 5 audit n t": LIMIT,
    "audit -- n t --limit 5": LIMIT,
    "audit n t --links x": LINKS,
    "check n t c --link x": LINKS,
    "run n t c s --links": "Write --links once, followed by the beginning of the names of the links' files, as in --links link.",
    "check -w n t c": OPTION,
    "check n t c --quiet": OPTION,
    "-v": OPTION,
    "check n t c d": "Leave it out: the usage line has all that the command takes, in this order.",
    "check n t": MISSING,
    "explain": MISSING,
    "chek n t c": COMMAND,
    "help audits": COMMAND,
    "help audit check": AFTER_HELP,
    "help explain 407": AFTER_HELP,
}


def faults_on_terminal(program):
    own, other = pty.openpty()
    try:
        wanted = run([program, "--help"])
        ran = run([program], stdin=other, seconds=60)
    except DidNotEnd:
        yield "it waits"
        return
    finally:
        os.close(own)
        os.close(other)
    if ran.returncode != 0 or ran.stderr:
        yield "status %d, and %r on standard error" % (ran.returncode, ran.stderr[:200])
    if not ran.stdout or ran.stdout != wanted.stdout:
        yield "printed %r instead of its help" % ran.stdout[:200]


def faults_of_words(program, words, advice):
    ran = run([program, *shlex.split(words)])
    printed = ran.stdout.decode()
    if ran.returncode != 6 or ran.stderr:
        yield "status %d, and %r on standard error" % (ran.returncode, ran.stderr[:200])
    if not printed.startswith("error: ") or not printed.endswith("\n\nwhat to do: %s\n" % advice):
        yield "printed %r, which doesn't end in %r" % (printed, advice)
    if "to pass '" in printed or "\n\n\n" in printed:
        yield "printed a tip that is none: %r" % printed


def faults_of_pipe(program):
    row = os.path.join(rows.ROWS, "certificate-of-another-selection-process")
    words = shlex.split(rows.octets_of(row, "words").decode())
    with tempfile.TemporaryDirectory() as folder:
        pipe = os.path.join(folder, "pipe")
        os.mkfifo(pipe)
        with open(os.path.join(row, words[-1]), "rb") as file:
            feeder = threading.Thread(target=feed, args=(pipe, file.read()), daemon=True)
        feeder.start()
        try:
            ran = run([program, "--explain", *words[:-1], pipe], row, seconds=60)
        except DidNotEnd:
            yield "it waits for the pipe again"
            return
    # (a pipe is explained like a file)
    wanted = run([program, "--explain", *words], row).stdout.replace(words[-1].encode(), pipe.encode())
    if ran.stdout != wanted or b"\nwhat to do: " not in wanted:
        yield "printed %r instead of %r" % (ran.stdout, wanted)


def faults_of_directory(program):
    with tempfile.TemporaryDirectory() as folder:
        ran = run([program, "lint", folder, "--explain"])
        wanted = "device 901\nfile: %s: it is a directory\n" % folder
        if ran.returncode != 5 or not ran.stdout.decode().startswith(wanted):
            yield "status %d, printed %r, which doesn't begin with %r" % (ran.returncode, ran.stdout, wanted)


def faults_of_closed_input(program):
    ran = run([program, "--explain"], preexec_fn=lambda: os.close(0))
    wanted = b"device 901\nfile: standard input: it is closed, it is a directory, or a read of it failed\n"
    if ran.returncode != 5 or not ran.stdout.startswith(wanted):
        yield "status %d, printed %r, which doesn't begin with %r" % (ran.returncode, ran.stdout, wanted)


def help_of(program, *command):
    return run([program, "help", *command]).stdout.decode()


def faults_of_width(program):
    """Each line of each help has at most 100 columns."""
    listed = help_of(program).split("\nCommands:\n", 1)[1].split("\n\n", 1)[0]
    for command in [(), *((line.split()[0],) for line in listed.splitlines())]:
        for line in help_of(program, *command).splitlines():
            if len(line) > 100:
                yield "a line of help %s has %d columns: %r" % (" ".join(command), len(line), line)


def help_documents(program):
    """The documents that the help of `lint` shows."""
    return [text + "\n" for text in help_of(program, "lint").split("\n\n") if text.startswith("  {")]


def write(folder, name, octets):
    with open(os.path.join(folder, name), "wb") as file:
        file.write(octets if isinstance(octets, bytes) else octets.encode())


def printed_by(program, folder, *words):
    """What the program prints in a folder."""
    return run([program, *words], folder).stdout.decode()


def faults_of_help_documents(program):
    """The documents that the help of `lint` shows must be accepted as they are printed there, and counted once."""
    found = help_documents(program)
    if len(found) != 4:
        yield "the help has %d documents instead of 4" % len(found)
        return
    for network, traffic in (found[:2], found[2:]):
        with tempfile.TemporaryDirectory() as folder:
            write(folder, "network", network)
            write(folder, "traffic", traffic)
            said = printed_by(program, folder, "lint", "network", "traffic", "--explain")
            # Of the second traffic it is printed that a class is exempt, and that one of its paths has no crossing.
            if said != "ok\n" and (network is found[0] or said.split("\n")[0] != "ok"):
                yield "printed %r of the documents in the help" % said
            said = printed_by(program, folder, "audit", "network", "traffic")
            if not said.startswith("once-certificate "):
                yield "printed %r in an audit of the documents in the help" % said


def help_example(program, command, heading="Example:"):
    """The lines that the help of a command has below a heading."""
    behind = help_of(program, command).split("\n%s\n" % heading, 1)[1].split("\n\n", 1)[0]
    return "".join(line[2:] + "\n" for line in behind.splitlines())


def two_packets():
    """A capture of raw IP: two packets from 10.0.0.1, of 80 octets each."""
    packet = struct.pack(">BBHHHBBH", 0x45, 0, 80, 0, 0, 64, 17, 0)
    packet += socket.inet_aton("10.0.0.1") + socket.inet_aton("192.0.2.1") + struct.pack(">HHHH", 5353, 53, 60, 0) + bytes(52)
    record = struct.pack("<IIII", 1700000000, 0, len(packet), len(packet)) + packet
    return struct.pack("<IHHiIII", 0xA1B2C3D4, 2, 4, 0, 0, 65535, 101) + record * 2


TOTALS_OF_RUN = "keys 1\n10.0.0.1 packets 2 octets 1580\nunassigned 0\ncomplete yes\n"
TOTALS_OF_CAPTURE = "keys 1\n10.0.0.1 packets 2 octets 160\nunassigned 0\nskipped other 0 malformed 0\n"
REFUTED = "refuted\nrun\nkeys 0\nunassigned 0\nplain\nkeys 1\n10.0.0.1 packets 1 octets 1500\nunassigned 0\n"


def faults_of_help_lines(program):
    """The lines that the helps show must be taken with the first documents of the help of `lint`."""
    network, traffic = help_documents(program)[:2]
    unlinked = json.dumps({**json.loads(network), "links": []})
    totals = help_example(program, "sum", "Example of totals:")
    with tempfile.TemporaryDirectory() as folder:
        for name, text in (("network", network), ("unlinked", unlinked), ("traffic", traffic), ("capture", two_packets())):
            write(folder, name, text)
        for words, text, wanted in (
            (("check", "network", "traffic"), help_example(program, "check", "Example of a certificate:"), "yes\n"),
            (("confirm", "unlinked", "traffic"), help_example(program, "confirm", "Example of a refutation:"), REFUTED),
            (("replay", "network", "traffic"), help_example(program, "replay", "Example of a run:"), TOTALS_OF_RUN),
            (("run", "network", "traffic", "capture"), help_example(program, "run", "Example of a schedule:"), TOTALS_OF_CAPTURE),
            (("sum", "network"), totals, totals),
        ):
            write(folder, "lines", text)
            said = printed_by(program, folder, *words, "lines")
            if said != wanted:
                yield "%s printed %r of the lines in its help, instead of %r" % (words[0], said, wanted)


def faults_of_help_commands(program):
    """The lines for a shell of the program's own help and of that of `sum` must do what they say."""
    network, traffic = help_documents(program)[:2]
    stream = rows.octets_of(os.path.join(rows.ROWS, "stream-of-two-messages"), "stream.ipfix")
    bundled = [line for line in help_of(program).splitlines() if line.startswith("  (echo audit")]
    with tempfile.TemporaryDirectory() as folder:
        os.symlink(program, os.path.join(folder, "once"))
        os.mkdir(os.path.join(folder, "streams"))
        write(folder, "network.json", network.rstrip())
        write(folder, "traffic.json", traffic.rstrip())
        for name, octets in (("one", stream), ("the other", stream), ("cut", stream[:-1])):
            write(folder, "streams/" + name, octets)
        wanted = "keys 1\n10.0.0.1 packets 6 octets 1200\nunassigned 0\ngaps 0\nskipped 0\n"
        for lines, wanted in (
            ("".join(bundled), "once-certificate 1\nclass 1 path 1\nL 1 1 1\nend\n"),
            (help_example(program, "sum"), wanted),
        ):
            ran = run(["sh", "-c", lines], folder, env={**os.environ, "PATH": folder + ":" + os.environ["PATH"]})
            if ran.stdout.decode() != wanted or ran.stderr:
                yield "%r printed %r and %r instead of %r" % (lines, ran.stdout, ran.stderr, wanted)
        if os.listdir(os.path.join(folder, "refused")) != ["cut"]:
            yield "the stream that is refused isn't kept apart"


def faults_of_links_over_input(program):
    """A link's file may not be one that the run reads."""
    row = os.path.join(rows.ROWS, RUN_WITH_LINKS)
    with tempfile.TemporaryDirectory() as folder:
        for name in ("network.json", "traffic.json", "capture.pcap"):
            shutil.copy(os.path.join(row, name), folder)
        shutil.copy(os.path.join(row, "schedule"), os.path.join(folder, "link1"))
        words = ["run", "network.json", "traffic.json", "capture.pcap", "link1", "--links", "link", "--explain"]
        ran = run([program, *words], folder)
        wanted = b"device 902\nfile: link1: the command reads this file, and doesn't write over it\n"
        if ran.returncode != 5 or not ran.stdout.startswith(wanted):
            yield "status %d, printed %r, which doesn't begin with %r" % (ran.returncode, ran.stdout, wanted)
        with open(os.path.join(folder, "link1"), "rb") as file:
            if file.read() != rows.octets_of(row, "schedule"):
                yield "the schedule was written over"


def feed(pipe, octets):
    with open(pipe, "wb") as file:
        file.write(octets)


def cases(program):
    yield "terminal", faults_on_terminal(program)
    for words, advice in ADVICE.items():
        yield words, faults_of_words(program, words, advice)
    yield "pipe", faults_of_pipe(program)
    yield "directory", faults_of_directory(program)
    yield "closed input", faults_of_closed_input(program)
    yield "width of the help", faults_of_width(program)
    yield "documents in the help", faults_of_help_documents(program)
    yield "lines in the helps", faults_of_help_lines(program)
    yield "commands in the helps", faults_of_help_commands(program)
    yield "links over input", faults_of_links_over_input(program)


if __name__ == "__main__":
    if len(sys.argv) != 2:
        sys.exit(__doc__)
    sys.exit(report_named(cases(os.path.abspath(sys.argv[1]))))
