"""Pictures of a network and of a run, drawn by Graphviz from what `once draw` prints, as elements of SVG for a page."""
from __future__ import annotations

import re
import shutil
import subprocess
from dataclasses import dataclass
from xml.etree import ElementTree

from once_tools.report import printable

SVG = "{http://www.w3.org/2000/svg}"
ELEMENTS = ("svg", "g", "path", "polygon", "polyline", "ellipse", "text")
# Colors are classes of the style sheet, which has them for light and for dark.
COLORS = {"black": "ink", "blue": "traffic", "darkgreen": "counted", "darkorange": "step", "red": "wrong", "#666666": "dim"}
SHAPES = ("transform", "points", "d", "cx", "cy", "rx", "ry", "x", "y", "text-anchor", "font-size", "stroke-width", "stroke-dasharray", "viewBox")
SECONDS = 60
NODE = r"[a-z]+\d+_\d+_\d+"


class NoPicture(Exception):
    """There is no picture, and why."""


@dataclass(frozen=True)
class Picture:
    """A picture as markup, with its width in CSS pixels."""

    markup: str
    width: int


def ends_of(line: str) -> list[str]:
    """Returns the nodes that a statement of a drawing is about."""
    found = re.match(rf"\s*({NODE})(?: -> ({NODE}))? ?[\[;]", line)
    return [one for one in found.groups() if one] if found else []


def is_step(line: str) -> bool:
    """Returns whether a statement is an arrow of a refutation's step."""
    return re.match(rf"\s*{NODE} -> {NODE} \[color=darkorange,", line) is not None


def with_one_arrow(lines: list[str]) -> list[str]:
    """Returns statements with one arrow for all steps that have the same ends."""
    labels: dict[tuple[str, ...], list[str]] = {}
    for line in lines:
        if is_step(line):
            labels.setdefault(tuple(ends_of(line)), []).append(line.partition('label="')[2].removesuffix('"];'))
    found = []
    for line in lines:
        if not is_step(line):
            found.append(line)
        elif tuple(ends_of(line)) in labels:
            label = "\\n".join(labels.pop(tuple(ends_of(line))))
            found.append(f"{line.partition('label=')[0]}label=\"{label}\"];")
    return found


def run_in(drawing: str, number: int, path: int) -> str:
    """Returns the part of a refutation's drawing that shows its run: the packet's path, the steps, what they meet, and the totals."""
    lines = drawing.split("\n")
    packets = f"packets{number}_{path}_0"
    kept = {packets, "outcome0_0_0"}
    for line in lines:
        if is_step(line) or packets in ends_of(line):
            kept.update(ends_of(line))
    # What is lost, and where it is counted, explains the steps.
    kept.update(one for line in lines if set(ends_of(line)) & kept for one in ends_of(line) if one.startswith(("lost", "outcome")))
    stepped = {tuple(ends_of(line)) for line in lines if is_step(line)}
    found: list[str] = []
    for line in lines:
        ends = ends_of(line)
        if not set(ends) <= kept or len(ends) == 2 and tuple(ends) in stepped and "[color=" not in line:
            continue
        # From above to below, so that a long run is not wide.
        found.append(line.replace("LR", "TB", 1) if stepped and line.startswith("  rankdir=LR;") else line)
        if line == "  }" and not ends_of(found[-2]):  # a device of which nothing is left
            del found[-3:]
    return "\n".join(with_one_arrow(found))


def drawn(drawing: str) -> bytes:
    """Returns the SVG that Graphviz makes of a drawing."""
    dot = shutil.which("dot")
    if dot is None:
        raise NoPicture("there is no program `dot`: install Graphviz (Debian's package graphviz)")
    try:
        ran = subprocess.run([dot, "-Tsvg"], input=drawing.encode("utf-8", "backslashreplace"), capture_output=True, timeout=SECONDS)
    except subprocess.TimeoutExpired as error:
        raise NoPicture(f"`dot` took more than {SECONDS} seconds") from error
    except OSError as error:
        raise NoPicture(f"`dot` cannot be run: {error.strerror}") from error
    if ran.returncode:
        raise NoPicture(f"`dot` ended with status {ran.returncode}: {ran.stderr.decode('utf-8', 'replace').strip()}")
    return ran.stdout


def classes_of(found: ElementTree.Element, is_text: bool) -> str:
    """Returns the classes that stand for the colors of an element."""
    fill, stroke = found.get("fill", "black" if is_text else "none"), found.get("stroke", "none")
    named = [f"fill-{COLORS.get(fill, 'ink')}" if fill not in ("none", "white", "transparent") else ""]
    named.append(f"line-{COLORS.get(stroke, 'ink')}" if stroke not in ("none", "transparent") else "")
    return " ".join(one for one in named if one)


def cleaned(found: ElementTree.Element) -> ElementTree.Element | None:
    """Returns an element with the parts that a page may have; None if it is another one."""
    name = found.tag.removeprefix(SVG) if isinstance(found.tag, str) else ""
    if name not in ELEMENTS:
        return None
    made = ElementTree.Element(name, {key: found.attrib[key] for key in SHAPES if key in found.attrib})
    colors = classes_of(found, name == "text") if name not in ("svg", "g") else ""
    if colors:
        made.set("class", colors)
    if name == "text":
        made.text = printable(found.text or "")
    for child in found:
        if name == "g" and child.tag == f"{SVG}polygon" and child.get("fill") == "white" and child.get("stroke") == "transparent":
            continue  # the background
        part = cleaned(child)
        if part is not None:
            made.append(part)
    return made


def picture_of(drawing: str, name: str, title: str) -> Picture:
    """Returns the picture of a drawing; `name` begins its identifiers, `title` is its text alternative."""
    try:
        root = ElementTree.fromstring(drawn(drawing))
    except ElementTree.ParseError as error:
        raise NoPicture(f"what `dot` prints is no XML: {error}") from error
    made = cleaned(root)
    size = re.fullmatch(r"(\d+)pt", root.get("width", ""))
    if made is None or size is None:
        raise NoPicture("`dot` prints no picture")
    width = int(size[1]) * 4 // 3
    made.attrib.update({"role": "img", "aria-labelledby": f"{name}-title", "style": f"--width:{width}px"})
    label = ElementTree.Element("title", {"id": f"{name}-title"})
    label.text = title
    made.insert(0, label)
    return Picture(ElementTree.tostring(made, encoding="unicode"), width)
