"""Names of devices that end in successive numbers."""
from __future__ import annotations

import re
from typing import Sequence


def are_numbered(names: Sequence[str]) -> bool:
    """Returns whether names end in numbers, each one more than that of the name before, and are the same before these."""
    parts = [re.fullmatch(r"(.*?)(\d+)", name) for name in names]
    found = [(one[1], int(one[2])) for one in parts if one]
    return len(found) == len(names) and all(after == (before[0], before[1] + 1) for before, after in zip(found, found[1:]))


def span(names: Sequence[str]) -> str:
    """Returns names that are numbered as the first and the last of them."""
    return f"{names[0]} to {names[-1]}"
