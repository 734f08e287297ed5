"""The scenarios, one in each module of this package, in the order of their names."""
from __future__ import annotations

import importlib
import pkgutil
import re

from lab.scenario import Scenario


def place_of(name: str) -> tuple[str, int, str]:
    """Returns where a name such as `n12-hairpin` stands among others: by its letter, then by its number."""
    match = re.match(r"([a-z]+)(\d+)-(.+)$", name)
    if match is None:
        raise ValueError(f"'{name}' is no name of a scenario: write a letter, a number and a word, as a1-one")
    return match[1], int(match[2]), match[3]


def all_scenarios() -> list[Scenario]:
    """Returns all scenarios in order."""
    names = [one.name for one in pkgutil.iter_modules(__path__)]
    found: list[Scenario] = [importlib.import_module(f"{__name__}.{name}").SCENARIO for name in names]
    return sorted(found, key=lambda one: place_of(one.name))
