"""What bench/compare.sh runs: compare.py PROGRAM FOLDER, the folder for documents and inputs."""
import datetime
import os
import platform
import shutil
import subprocess
import sys

import collect
import instructions
import lists
import replay
import run as metering
from check import least_in_turns, run

TOP = os.path.dirname(os.path.dirname(os.path.abspath(__file__)))
PROVED = os.path.join(TOP, "out", "proved")
PAGE, PICTURE = os.path.join(TOP, "docs", "SPEED.md"), os.path.join(TOP, "docs", "speed.svg")
ROUNDS = 5

HEAD = """# Speed

What the commands cost, compared with programs that do similar work. `bench/compare.sh` writes this page and its picture.

- Machine: {machine}
- Compared with: {peers}
- Measured on {day}, `once` as it is proved and built.

## CPU time

Minimum of {rounds} interleaved end-to-end runs, divided by the number of units, in nanoseconds. `mawk` adds up the words of the lines,
`{{n += NF}} END {{print n}}`; `nfcapd` receives the messages over the loopback and stores the flows, and adds nothing up; `softflowd`
meters the capture into flows and sends them nowhere.

| Work | `once` | Other | Ratio |
|---|---|---|---|
"""

# What was measured once, on other machines.
ELSEWHERE = os.path.join(TOP, "bench", "elsewhere.md")

COUNTED = """
## Instructions

Counted by valgrind's callgrind, independent of a machine's load and clock: the difference between two inputs, divided by the
difference in units. `bench/instructions.py PROGRAM --noted docs/SPEED.md` fails if one takes more than 1.10 times the number
in this table.

| Work | Unit | Instructions | Other |
|---|---|---|---|
"""

PROOF = """
## The proof

The last `make once` in a fresh clone: {proved}.
"""

GROWTH = """
## Growth

Minimum CPU time of three runs, in seconds:

"""

UNITS = {
    "check": "a line of a certificate",
    "collect": "a record, 69 to a message",
    "replay": "a packet along ten collectors",
    "audit": "a line of a certificate that is found",
    "run": "a packet of a capture",
    **{name: f"a line, {name.rpartition('-')[2].replace('x', ' x ')} {'matches' if '-matches-' in name else 'filters'}" for name in instructions.KINDS if "-" in name},
}


# ---- inputs: each gives the words of a run of this size

def of_check(work, lines):
    return instructions.checked(work, lines // 2)[0]


def of_collect(work, records):
    return instructions.collected(work, records)[0]


def of_run(work, frames):
    folder = os.path.join(work, "frames-%d" % frames)
    words = metering.write_inputs(folder, frames, min(10_000, frames))
    return [words[0], *(os.path.join(folder, name) for name in words[1:])]


def of_replay(work, steps):
    path = os.path.join(work, "steps-%d.txt" % steps)
    with open(path, "w") as file:
        file.writelines(replay.one_record(steps)[0])
    return ["replay", instructions.NETWORK, instructions.TRAFFIC, path]


def of_lists(work, lines):
    return ["audit", *lists.documents(work, lines // 512, 256, "ascending")]


SIZES = {
    "check": (of_check, "line", (1_000, 10_000, 100_000, 999_999)),
    "collect": (of_collect, "record", (3_000, 30_000, 300_000, 3_000_000)),
    "run": (of_run, "packet", (1_000, 10_000, 100_000, 1_000_000)),
    "replay": (of_replay, "step", (2_000, 20_000, 200_000)),
    "audit of filter lists": (of_lists, "line", (512, 2_048, 8_192, 16_384)),
}


# ---- programs that do such work too

def by_mawk(words):
    return ["mawk", "{n += NF} END {print n}", words[-1]]


def by_softflowd(words):
    return ["softflowd", "-m", "20000", "-r", words[3]]


PEERS = {"check": ("mawk", by_mawk), "run": ("softflowd", by_softflowd)}


def seconds(words):
    """The processor time of a run that ends well."""
    taken, used, said, status = run(words)
    if status:
        sys.exit("%s: status %d: %r" % (words[0], status, said[:200]))
    return used


def by_nfcapd(work, records):
    """nfcapd's processor time over these messages, from the loopback; a run that loses records is made again."""
    stream = list(collect.messages(records, 69))
    for _ in range(10):
        found = collect.stored(os.path.join(work, "flows"), stream, records)
        if found:
            return found[1]
    sys.exit("nfcapd lost records ten times")


# ---- what is measured

def compared(program, work):
    """Rows: the work, a unit, and the nanoseconds of a unit by us and by another program, interleaved."""
    size = 999_999
    words = of_check(work, size)
    ours, theirs = least_in_turns(ROUNDS, [lambda: seconds([program, *words]), lambda: seconds(by_mawk(words))])
    yield "`check`, 999,999 lines", "line", ours / size, "mawk", theirs / size
    size = 300_000
    words_of_stream = of_collect(work, size)
    ours, theirs = least_in_turns(ROUNDS, [lambda: seconds([program, *words_of_stream]), lambda: by_nfcapd(work, size)])
    yield "`collect`, 300,000 records", "record", ours / size, "nfcapd", theirs / size
    size = 1_000_000
    words_of_capture = of_run(work, size)
    ways = [lambda: seconds([program, *words_of_capture]), lambda: seconds(by_softflowd(words_of_capture))]
    ours, theirs = least_in_turns(ROUNDS, ways)
    yield "`run`, 1,000,000 packets of 10,000 flows", "packet", ours / size, "softflowd", theirs / size
    size = 200_000
    words_of_steps = of_replay(work, size)
    ours = least_in_turns(ROUNDS, [lambda: seconds([program, *words_of_steps])])[0]
    yield "`replay`, 200,000 steps", "step", ours / size, None, None


def counted(program, work):
    """Rows: the kind of work, its instructions by the unit, and the name and the instructions of another program."""
    for kind, (make, size) in instructions.KINDS.items():
        inputs = make(work, size), make(work, 2 * size)
        ours = instructions.by_unit(program, *inputs)
        if kind not in PEERS:
            yield kind, ours, None, None
            continue
        name, words_of = PEERS[kind]
        first, second = ((words_of(words)[1:], units) for words, units in inputs)
        yield kind, ours, name, instructions.by_unit(name, first, second)


def growth(program, work):
    """By the kind of work its unit, and for each size the least processor time of three runs."""
    for kind, (make, unit, sizes) in SIZES.items():
        words = [make(work, size) for size in sizes]
        yield kind, unit, [(size, min(seconds([program, *it]) for _ in range(3))) for size, it in zip(sizes, words)]


# ---- the page

def first_line(words):
    said = subprocess.run(words, stdout=subprocess.PIPE, stderr=subprocess.STDOUT).stdout.decode(errors="replace")
    return said.strip().split("\n")[0].strip()


def machine():
    with open("/proc/cpuinfo") as file:
        names = [line.split(":")[1].strip() for line in file if line.startswith("model name")]
    return "%s, %d processors, Linux %s" % (names[0] if names else platform.machine(), os.cpu_count(), platform.release())


def peers():
    softflowd = subprocess.run(["softflowd", "-h"], stdout=subprocess.PIPE, stderr=subprocess.STDOUT).stdout.decode()
    version = next((line for line in softflowd.split("\n") if "version" in line), "softflowd").split(".  ")[0]
    told = [first_line(["mawk", "-W", "version"]), first_line(["nfcapd", "-V"]), version.replace("This is ", "").split(". ")[0]]
    told.append(first_line(["valgrind", "--version"]))
    return ", ".join(it.replace(": Version:", "").replace("version ", "").replace("-3", " 3") for it in told)


def text_of(path):
    with open(path, encoding="utf-8") as file:
        return file.read()


def page(rows, counts, grown):
    text = HEAD.format(machine=machine(), peers=peers(), day=datetime.date.today(), rounds=ROUNDS)
    for work, unit, ours, name, theirs in rows:
        beside, times = ("%s %.0f ns" % (name, theirs * 1e9), "%.2f" % (ours / theirs)) if name else ("", "")
        text += "| %s | %.0f ns a %s | %s | %s |\n" % (work, ours * 1e9, unit, beside, times)
    text += "\n" + text_of(ELSEWHERE) + COUNTED
    for kind, ours, name, theirs in counts:
        beside = "%s %s, %.2f times" % (name, format(round(theirs), ","), ours / theirs) if name else ""
        text += "| `%s` | %s | %s | %s |\n" % (kind, UNITS[kind], format(round(ours), ","), beside)
    if os.path.exists(PROVED):
        text += PROOF.format(proved=text_of(PROVED).strip())
    text += GROWTH
    for kind, unit, points in grown:
        text += "- `%s`: %s\n" % (kind, ", ".join("%s %ss %.3f" % (format(size, ","), unit, took) for size, took in points))
    return text + ("\n![CPU time against size](speed.svg)\n" if draw(grown) else "")


def draw(grown):
    """Draws the growth on two logarithmic axes; whether gnuplot is there to do it."""
    if not shutil.which("gnuplot"):
        return False
    lines = ["set terminal svg size 720,480 font 'sans,12' background 'white'", "set output '%s'" % PICTURE]
    lines += ["set logscale xy", "set xlabel 'lines, records, packets, steps'", "set ylabel 'seconds of CPU time'"]
    lines += ["set key left top", "set grid", "set format x '10^{%L}'"]
    lines.append("plot " + ", ".join("'-' with linespoints title '%s'" % kind for kind, _, _ in grown))
    for _, _, points in grown:
        lines += ["%d %g" % point for point in points] + ["e"]
    subprocess.run(["gnuplot"], input="\n".join(lines).encode(), check=True)
    return True


def main(program, work):
    program = os.path.abspath(program)
    for word in ("valgrind", "mawk", "nfcapd", "nfdump", "softflowd"):
        if not shutil.which(word):
            sys.exit("%s is missing: see the top of bench/compare.sh" % word)
    rows, counts = list(compared(program, work)), list(counted(program, work))
    text = page(rows, counts, list(growth(program, work)))
    with open(PAGE, "w") as file:
        file.write(text)
    print(text)


if __name__ == "__main__":
    main(*sys.argv[1:])
