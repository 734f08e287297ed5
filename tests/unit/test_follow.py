"""Trials that follow the proofs of `rt ci`: which crates are looked at, and when their mutants are tried."""
from concurrent.futures import Future

import mutants


class Crate:
    """A crate above others."""

    def __init__(self, name, below=()):
        self.name, self.deps = name, list(below)

    def below(self):
        return self.deps

    def count(self, _octets):
        return 1


class Edits:
    """The mutants of a crate, one of which is to be tried."""

    def __init__(self, crate):
        self.crate = crate

    def pending(self):
        return ["edit"]


class Libraries:
    """Finds one more crate proved in each round, in this order, and notes which crates are looked at."""

    def __init__(self, order):
        self.order, self.proved, self.found, self.looked_at = order, [], {}, []

    def is_proved(self, crate):
        if crate.name not in self.found:
            self.looked_at.append(crate.name)
            self.found[crate.name] = crate.name in self.proved
        return self.found[crate.name]

    def prove_next(self):
        if self.order:
            self.proved.append(self.order.pop(0))


class Pool:
    """A pool that runs each task where it is submitted, so that the order of trials is the order in which they begin."""

    def __init__(self, _workers):
        pass

    def __enter__(self):
        return self

    def __exit__(self, *_error):
        pass

    def submit(self, task, *arguments):
        done = Future()
        done.set_result(task(*arguments))
        return done


class Rt:
    """The kit's command, on two processors."""

    @staticmethod
    def processors():
        return 2


def followed(monkeypatch, libraries, edits):
    """Returns the names of the crates whose mutants were tried, in order, with one more crate proved before each round."""
    tried = []
    monkeypatch.setattr(mutants, "FOLLOW_SECONDS", 0)
    monkeypatch.setattr(mutants, "ThreadPoolExecutor", Pool)
    monkeypatch.setattr(mutants, "try_crate", lambda rt, it, arguments, may_keep: tried.append(it.crate.name) or (1, 0, 0.0))
    forget = mutants.forget_unproved

    def next_round(of):
        forget(of)
        of.prove_next()

    monkeypatch.setattr(mutants, "forget_unproved", next_round)
    monkeypatch.setattr(mutants, "has_input_ended", lambda: not libraries.order)
    mutants.follow(Rt, edits, None, libraries)
    return tried


def chain(length):
    crates = []
    for number in range(length):
        crates.append(Crate(f"crate{number}", crates))
    return crates


def test_mutants_are_tried_once_their_crates_are_proved(monkeypatch):
    crates = chain(5)
    libraries = Libraries([it.name for it in crates])
    assert followed(monkeypatch, libraries, [Edits(it) for it in crates]) == [it.name for it in crates]


def test_a_round_looks_only_at_the_first_crate_that_is_not_proved(monkeypatch):
    crates = chain(30)
    libraries = Libraries([it.name for it in crates])
    followed(monkeypatch, libraries, [Edits(it) for it in crates])
    # (each crate once before it is proved and once after that, not once for each crate above it)
    assert len(libraries.looked_at) <= 3 * len(crates)


def test_mutants_of_crates_that_are_never_proved_are_left(monkeypatch):
    crates = chain(3)
    libraries = Libraries([crates[0].name])
    assert followed(monkeypatch, libraries, [Edits(it) for it in crates]) == [crates[0].name]
