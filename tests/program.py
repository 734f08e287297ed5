"""Runs programs for the scripts of tests/ and bench/: to their end, within a limit of time, without standard input unless some is given."""
import os
import resource
import subprocess

# The most seconds of a run, unless its script gives others.
SECONDS = 120
PIPE, NOWHERE, WITH_OUTPUT = subprocess.PIPE, subprocess.DEVNULL, subprocess.STDOUT


class DidNotEnd(subprocess.TimeoutExpired):
    """A run took more than its seconds."""


def limited_to(space):
    """Returns what is done before a program runs so that it has at most this many octets of address space."""
    return lambda: resource.setrlimit(resource.RLIMIT_AS, (space, space))


def run(words, folder=None, given=None, seconds=SECONDS, space=None, **how):
    """Runs a program to its end; returns its status and what it printed. `given` is its standard input, `space` the most octets of
    its address space; `how` is what subprocess.run takes besides: files for its outputs, text, an environment."""
    if space is not None:
        how["preexec_fn"] = limited_to(space)
    if given is not None:
        how["input"] = given
    elif "stdin" not in how:
        how["stdin"] = NOWHERE
    how = {"stdout": PIPE, "stderr": PIPE, **how}
    try:
        return subprocess.run(words, cwd=folder, timeout=seconds, **how)
    except subprocess.TimeoutExpired as error:
        raise DidNotEnd(words, seconds, error.stdout, error.stderr) from None


def start(words, folder=None, space=None, **how):
    """Starts a program and returns it as it runs; `how` is what subprocess.Popen takes besides."""
    if space is not None:
        how["preexec_fn"] = limited_to(space)
    return subprocess.Popen(words, cwd=folder, **{"stdout": PIPE, **how})


def succeed(words, folder=None, **how):
    """The same as `run` of a program that has to end with status 0: else this script ends, and says with what it ended."""
    ran = run(words, folder, **how)
    if ran.returncode:
        said = " ".join(repr(it[:300]) for it in (ran.stdout, ran.stderr) if it)
        raise SystemExit("%s ended with status %d: %s" % (os.path.basename(words[0]), ran.returncode, said))
    return ran


def cpu_seconds():
    """Returns the CPU time of all programs that have ended."""
    used = resource.getrusage(resource.RUSAGE_CHILDREN)
    return used.ru_utime + used.ru_stime


def timed(words, folder=None, space=None, seconds=None):
    """Returns the CPU time of a program that has to end with status 0, and what it printed."""
    before = cpu_seconds()
    ran = succeed(words, folder, space=space, seconds=seconds, stderr=WITH_OUTPUT)
    return cpu_seconds() - before, ran.stdout.decode(errors="replace")
