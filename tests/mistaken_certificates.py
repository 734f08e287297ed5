"""Puts a mistake into the text of a certificate: into a leaf, a split, a line, or the text as a whole."""
import random
from typing import Callable, List, Tuple

Drawn = random.Random


def lines_of_kind(lines: List[str], kinds: str) -> List[int]:
    """Returns where lines of these kinds are, the first octets of their words."""
    return [at for at, line in enumerate(lines) if at and line[:1] in kinds and not line.startswith("class")]


def end_of_tree(lines: List[str], at: int) -> int:
    """Returns where the tree ends that begins with this line."""
    due = 1
    while due:
        due += 1 if lines[at].startswith("S ") else -1
        at += 1
    return at


def one_of(draw: Drawn, lines: List[str], kinds: str) -> int:
    """Returns where a line of these kinds is, or that of the end if there is none."""
    return draw.choice(lines_of_kind(lines, kinds) or [len(lines) - 1])


def another_place(draw: Drawn, lines: List[str]) -> None:
    """A leaf names another crossing, observation point or selection process."""
    at = one_of(draw, lines, "L")
    words = lines[at].split()
    number = draw.randrange(1, 4)
    if len(words) == 4:
        words[number] = str(draw.choice([0, 1, 2, 3, int(words[number]) + 1]))
    lines[at] = " ".join(words)


def another_verdict(draw: Drawn, lines: List[str]) -> None:
    at = one_of(draw, lines, "LN")
    lines[at] = "L 1 1 1" if lines[at] == "N" else "N"


def leaves_exchanged(draw: Drawn, lines: List[str]) -> None:
    """Two leaves change places, or a split and a leaf."""
    first, second = one_of(draw, lines, "L"), one_of(draw, lines, "LSN")
    lines[first], lines[second] = lines[second], lines[first]


def split_removed(draw: Drawn, lines: List[str]) -> None:
    """A leaf replaces a split with both its trees."""
    at = one_of(draw, lines, "S")
    if lines[at] != "end":
        leaf = next(it for it in lines[at:] if it[0] in "LN")
        lines[at:end_of_tree(lines, at)] = [leaf]


def split_moved(draw: Drawn, lines: List[str]) -> None:
    at = one_of(draw, lines, "S")
    words = lines[at].split()
    if len(words) == 3:
        words[2] = str(draw.choice([0, 1, max(0, int(words[2]) - 1), int(words[2]) + 1, 255]))
    lines[at] = " ".join(words)


def split_added(draw: Drawn, lines: List[str]) -> None:
    """A leaf is split once more: on an axis that its class may restrict."""
    at = one_of(draw, lines, "LN")
    if lines[at] != "end":
        lines[at:at + 1] = [draw.choice(["S protocol 7", "S version 5", "S dport 80", "S source 16777216"]), lines[at], lines[at]]


def line_left_out(draw: Drawn, lines: List[str]) -> None:
    del lines[draw.randrange(1, len(lines))]


def line_without_form(draw: Drawn, lines: List[str]) -> None:
    at = draw.randrange(1, len(lines))
    other = ["L 01 1 1", "S version 256", "S source 10.0.0.0", ""]
    lines[at] = draw.choice([f"{lines[at]} ", f" {lines[at]}", f"{lines[at].lower()}x", *other])


def other_header(draw: Drawn, lines: List[str]) -> None:
    lines[0] = draw.choice(["once-certificate 3", "once-certificate 1", "once-certificate 2", "once-refutation 2", ""])


def line_after_the_end(draw: Drawn, lines: List[str]) -> None:
    lines.append(draw.choice(["", "end", "L 1 1 1", lines[0]]))


def splits_in_one_another(draw: Drawn, lines: List[str]) -> None:
    """A leaf is below 513 splits more."""
    at = one_of(draw, lines, "LN")
    word, top = draw.choice([("sport", 65535), ("dport", 65535), ("destination6", 2**128 - 1)])
    lines[at:at] = [f"S {word} {top - below}" for below in range(513)]


Mistake = Callable[[Drawn, List[str]], None]
MISTAKES: Tuple[Mistake, ...] = (
    another_place, another_place, another_place, another_verdict, leaves_exchanged, leaves_exchanged, split_removed, split_removed,
    split_moved, split_moved, split_added, line_left_out, line_without_form, other_header, line_after_the_end, splits_in_one_another,
)


def mistaken(draw: Drawn, lines: List[str]) -> str:
    """Returns the text of a certificate with a mistake, in some cases cut off."""
    if draw.random() < 0.04:
        text = "\n".join(lines) + "\n"
        return text[:draw.randrange(len(text))]
    changed = list(lines)
    draw.choice(MISTAKES)(draw, changed)
    return "\n".join(changed) + "\n"
