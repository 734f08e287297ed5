#!/usr/bin/env python3
"""Proves the libraries that the program uses, lowest first, and builds the program from what is proved.

usage: prove_program.py [NAME..]

Run at the top of the repository. Each NAME is a crate of crates.txt, which is proved with all crates below it; the program by
default. A crate is proved once all libraries that it names are, side by side as many as memory and all processors but one
allow, first those with the longest chain of others above them. The crate with the longest chain gets three processes, or more if no
other can run beside it, one whose chain is nearly as long two, and any other one. RT_JOBS=N in the environment sets how many are
proved at a time, with one process each.

One line for each crate says how long its proof took, elapsed and in CPU time; the last line says it of all, and for how long the
machine's host kept processors for others. If all crates were proved by one call, as from a fresh clone, out/proved has that line.

What is proved is in the crate's out/program, with the prover's output in the file `said`: its library, or of the program
`once`. A library keeps the statements that crates above may cite and leaves the proofs out, so that it is read quickly. A
crate whose files, libraries and kit are as they were is kept.
"""
import os
import signal
import subprocess
import sys
import time
from concurrent.futures import FIRST_COMPLETED, ThreadPoolExecutor, wait

TOP = os.path.dirname(os.path.dirname(os.path.realpath(__file__)))
sys.dont_write_bytecode = True
sys.path.insert(0, os.path.join(TOP, "tests"))
from kit import load_rt

PROGRAM = "once"

# What a proof of all crates took.
TOOK = os.path.join(TOP, "out", "proved")

# A proof by one process takes this much memory, and this share of what the kit foresees: where that was 17.8, 7.6 and 5.2 GB,
# proofs took 5.9, 3.3 and 2.9.
LEAST_MEMORY, SHARE_OF_MEMORY = 1_700_000_000, 0.27

# The share of that for each further process, which has most of its memory in common with the first.
MORE_MEMORY = 0.15

# How many processes prove the crate with the longest chain of crates that wait for it, and how many one whose chain has at least this
# share of that length. Any other is proved by one.
LONGEST_JOBS, NEAR_JOBS, NEAR = 3, 2, 0.8

# How many processes at the most prove a crate that runs alone: more seldom help.
ALONE_JOBS = 8

# How many lines of code cost as much as what every proof of a crate begins and ends with, and how many lines of the libraries
# below as much as a line of its own. Lines of definitions and proof files cost next to nothing.
LINES_OF_A_CRATE, LINES_BELOW = 170, 30


def made_by(crate):
    """The library that a proof of the crate gives, or the program."""
    return os.path.join(crate.folder, "out", "program", crate.name + ("" if crate.is_program else ".rlib"))


def kept_by_host():
    """For how many seconds since the machine started its host kept a processor for others while there was work for it."""
    with open("/proc/stat") as file:
        words = file.readline().split()
    return int(words[8]) / os.sysconf("SC_CLK_TCK")


def run(words, **how):
    """Runs a program; its status, below 0 where a signal ended it, and the processor time that it and its processes used."""
    process = subprocess.Popen(words, **how)
    _, status, used = os.wait4(process.pid, 0)
    process.returncode = os.waitstatus_to_exitcode(status)
    return process.returncode, used.ru_utime + used.ru_stime


def build(rt, crate, jobs, said):
    """Proves a crate and builds its library, or links the program; whether it is proved, and the processor time used."""
    made = made_by(crate)
    words = crate.words(["--jobs", str(jobs)], keeps=False)
    if crate.is_program:
        words += ["--toolchain", rt.KIT + "/toolchain", "--backend", "llvm", "-o", made + ".o"]
    else:
        words += ["--statements", "-o", made]
    how = {"cwd": crate.folder, "stdin": subprocess.DEVNULL, "stdout": said, "stderr": subprocess.STDOUT}
    status, used = run([*rt.rtlib.guarded(), rt.rtlib.RATTLE, "build", *words], **how)
    if status == -signal.SIGKILL and jobs > 1:
        # Most likely for memory.
        is_proved, more = build(rt, crate, 1, said)
        return is_proved, used + more
    links = status == 0 and crate.is_program
    return status == 0 and (not links or crate.link(made + ".o", os.path.relpath(made, crate.folder)) == 0), used


def prove(rt, crate, given, jobs):
    """Proves a crate whose libraries are proved, unless it is as it was, and says so; the processor time used, or None where it
    isn't proved."""
    if any(given[it.name] is None for it in crate.below()):
        return None
    folder = os.path.dirname(made_by(crate))
    noted, stamp = os.path.join(folder, "stamp"), crate.stamp()
    if os.path.exists(made_by(crate)) and rt.rtlib.text_of(noted) == stamp:
        return 0.0
    os.makedirs(folder, exist_ok=True)
    if os.path.exists(noted):
        os.remove(noted)
    file, began = os.path.join(folder, "said"), time.monotonic()
    with open(file, "w") as said:
        is_proved, used = build(rt, crate, jobs, said)
    if not is_proved:
        print("%s%s: NOT PROVED" % (rt.rtlib.text_of(file), crate.name), flush=True)
        return None
    with open(noted, "w") as it:
        it.write(stamp)
    print("%s: proved in %.0f s, %.0f s of processor time" % (crate.name, time.monotonic() - began, used), flush=True)
    return used


def chains(tasks):
    """By each task the work of the longest chain of tasks that begins with it and waits for one another. Tasks come after
    those that they wait for."""
    behind = {name: 0 for name in tasks}
    for name in reversed([*tasks]):
        behind[name] += tasks[name][1]
        for below in tasks[name][0]:
            behind[below] = max(behind[below], behind[name])
    return behind


def lines_of(rt, crate):
    """How many lines of code a crate has."""
    return sum(rt.rtlib.text_of(it).count("\n") for it in rt.rtlib.files_of(crate.folder) if it.endswith(".rt"))


def work_of(rt, crate):
    """How long a proof of the crate takes beside those of others, in lines of code."""
    below = sum(lines_of(rt, it) for it in crate.below())
    return LINES_OF_A_CRATE + lines_of(rt, crate) + below / LINES_BELOW


def jobs_of(share, is_alone, processors, room, needs):
    """How many processes prove a crate that waits for nothing, where its chain has this share of the longest, no other can run
    beside it or some can, and this much memory is left."""
    if is_alone:
        wanted = ALONE_JOBS
    elif share == 1:
        wanted = LONGEST_JOBS
    else:
        wanted = NEAR_JOBS if share >= NEAR else 1
    fitting = 1 + int((room / needs - 1) / MORE_MEMORY)
    return max(1, min(wanted, processors, fitting))


def side_by_side(tasks, processors, memory):
    """Runs tasks, each once those that it waits for have ended, and answers what each gave. A task is what it waits for, its
    work, the memory that it needs, and a call that gets what was given and how many processes it may use."""
    fixed = os.environ.get("RT_JOBS", "")
    fixed = int(fixed) if fixed.isdigit() and int(fixed) else 0
    lanes = fixed or max(processors - 1, min(processors, 2))
    behind, running, given = chains(tasks), {}, {}
    left = sorted(tasks, key=lambda name: -behind[name])
    with ThreadPoolExecutor(lanes) as pool:
        while left or running:
            longest = max(behind[name] for name in [*left, *(name for name, _ in running.values())])
            ready = [name for name in left if all(below in given for below in tasks[name][0])]
            is_alone = len(ready) == 1 and not running
            for name in ready:
                needs, call = tasks[name][2:]
                room = memory - sum(held for _, held in running.values())
                if len(running) < lanes and (fixed or not running or needs <= room):
                    jobs = 1 if fixed else jobs_of(behind[name] / longest, is_alone, processors, room, needs)
                    left.remove(name)
                    running[pool.submit(call, given, jobs)] = name, needs * (1 + MORE_MEMORY * (jobs - 1))
            for done in wait(running, return_when=FIRST_COMPLETED).done:
                given[running.pop(done)[0]] = done.result()
    return given


def main(names):
    rt = load_rt()
    os.environ.pop(rt.rtlib.ALLOW_C, None)
    rt.rtlib.guarded()
    rt.rtlib.Crate = rt.Crate
    every = rt.rtlib.crates_below(TOP)
    lacking = [it for it in names if it not in [crate.name for crate in every]]
    if lacking:
        sys.exit("crates.txt has no crate %s" % lacking[0])
    asked = names or [PROGRAM]
    wanted = {below.name for it in every if it.name in asked for below in [it, *it.below()]}
    tasks = {}
    for crate in every:
        crate.rlib = made_by(crate)
        if crate.name in wanted:
            work = lambda given, jobs, crate=crate: prove(rt, crate, given, jobs)
            waits = [it.name for it in crate.below()]
            needs = LEAST_MEMORY + SHARE_OF_MEMORY * rt.need(crate)
            tasks[crate.name] = waits, work_of(rt, crate), needs, work
    began, kept = time.monotonic(), kept_by_host()
    given = side_by_side(tasks, rt.processors(), 0.85 * rt.free()).values()
    if None in given:
        return 1
    if sum(given):
        took = sum(used > 0 for used in given), time.monotonic() - began, sum(given), rt.processors(), kept_by_host() - kept
        line = "%d crates proved in %.0f s, %.0f s of processor time, on %d processors, of whose time the host kept %.0f s" % took
        print(line)
        if all(given) and not names:
            os.makedirs(os.path.dirname(TOOK), exist_ok=True)
            with open(TOOK, "w") as file:
                file.write(line + "\n")
    return 0


if __name__ == "__main__":
    sys.exit(main(sys.argv[1:]))
