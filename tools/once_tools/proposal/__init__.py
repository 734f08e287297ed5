"""A project file to start from, for the configurations in a folder."""
from __future__ import annotations

from pathlib import Path

from once_tools.paths.links import report_subnets
from once_tools.project import Project, parse_project
from once_tools.proposal.areas import Edge, Surroundings, partial_meters, surroundings, topology_of_project
from once_tools.proposal.collectors import collectors_of
from once_tools.proposal.files import Folder, Found, Output, look_at
from once_tools.proposal.flows import lines_of
from once_tools.proposal.links import Described, described_links
from once_tools.proposal.roles import give_roles
from once_tools.proposal.toml import comment, commented, listed, one_or_list, quoted
from once_tools.proposal.traffic import Proposed, traffic_of
from once_tools.report import printable, where
from once_tools.source import Source

HEAD = ("A project of once-import, proposed for the files of this folder. The comments say what each line was read from, and "
        "what only you can know. Check them, then run: once-import audit PROJECT")
ROLES = ("What each interface leads to. `customers` are those inside, `core` are uplinks, peers and other routers. Put an "
         "interface into the other role, or leave it out, if it is wrong here.")
TRAFFIC = ("Each packet of this traffic must be counted exactly once. Write exempt = true below a name if its packets must "
           "not be counted; take out what does not occur.")
MOST_NAMED = 40


def device_lines(one: Found, folder: Folder, guess: bool) -> list[str]:
    """Returns the table of a device."""
    lines = ["[[devices]]", f"name = {quoted(one.name)}", folder.kind_of(one, guess)]
    if one.path:
        files = [folder.spelled(path) for path in (one.path, *one.named)]
        lines.append(f"config = {one_or_list(files)}" + (f"  # {printable(one.trouble)}" if one.trouble else ""))
    if one.options:
        lines += comment("No file names the interface that it meters: write its name here.")
        lines.append("options = { " + ", ".join(f"{key} = {quoted(value)}" for key, value in one.options.items()) + " }")
    for output in (Output.ADDRESSES, Output.ROUTES, Output.NEIGHBOURS):
        if output in one.outputs:
            lines.append(f"{output.value} = {one_or_list([folder.spelled(path) for path in one.outputs[output]])}")
    return [*lines, ""]


def named(entries: list[str]) -> str:
    """Returns the first of some names."""
    return ", ".join(entries[:MOST_NAMED]) + (f" and {len(entries) - MOST_NAMED} more" if len(entries) > MOST_NAMED else "")


def role_lines(around: Surroundings) -> list[str]:
    """Returns the roles, with what suggests them."""
    found: dict[str, list[Edge]] = {}
    for role in ("customers", "core", "others"):
        edges = [edge for area in around.areas for edge in area.edges if edge.role == role]
        found |= {role: edges} if edges else {}
    lines = [*comment(ROLES), "[roles]"] if found else []
    for role, edges in found.items():
        lines.append(f"{role} = " + commented((edge.text, edge.reason) for edge in edges))
    if "others" in found:
        lines += comment("Nothing says what `others` lead to: put each into another role.")
    lines += left_lines(around)
    return [*lines, ""] if lines else []


def left_lines(around: Surroundings) -> list[str]:
    """Returns comments about the interfaces that are in no role, and about links that may be missing."""
    lines: list[str] = []
    if around.linked:
        lines += comment("Links join these, so they are in no role: " + named(around.linked))
    if around.unlinked:
        lines += comment("Descriptions of these name a device of this folder, but which interface of it is at the other end is "
                         f"not clear: {named(around.unlinked)}. Add the links as pairs = [[\"DEVICE:INTERFACE\", "
                         "\"DEVICE:INTERFACE\"]] under [links], so that a packet that both ends meter is seen.")
    for one in report_subnets(around.topology, {edge.node for area in around.areas for edge in area.edges}):
        lines += comment(f"{one.says}. If packets do, add pairs under [links].")
    reasons: dict[str, list[str]] = {}
    for text, reason in around.left_out:
        reasons.setdefault(reason, []).append(text)
    for reason, texts in reasons.items():
        lines += comment(f"In no role ({reason}): {named(texts)}")
    return lines


def traffic_lines(proposed: Proposed, around: Surroundings) -> list[str]:
    """Returns the traffic, and what is to be said of it."""
    lines = comment(TRAFFIC if proposed.flows else "No interface was found by which packets pass, so no traffic is proposed: add "
                    "[[traffic]] with a name, and the interfaces as from and to.")
    for text, place in partial_meters(around):
        lines += comment(f"A filter ({where(place)}) takes a part of the packets at {text}: write source, destination or the "
                         "like for the packets that must be counted there, and add exempt traffic for the rest.")
    for text in proposed.unsaid:
        lines += comment(text)
    return [*lines, "", *(line for flow in proposed.flows for line in lines_of(flow))]


def file_lines(folder: Folder) -> list[str]:
    """Returns comments about files that are in no table."""
    lines: list[str] = []
    for path, name in folder.twins:
        lines += comment(f"{folder.spelled(path)} is not read: it is a second text of {name}. If it is another device, add it "
                         "under [[devices]] with a name of its own.")
    if folder.others:
        lines += comment("Files that are of no known kind: " + named([folder.spelled(one) for one in folder.others]))
    return lines


def project_of(lines: list[str], folder: Path) -> Project:
    """Returns the project that lines describe."""
    return parse_project(Source("project", "\n".join(lines) + "\n"), folder.resolve())


def link_lines(folder: Folder, described: list[Described]) -> list[str]:
    """Returns the table of the links that a file or descriptions of interfaces name."""
    lines = ["[links]"] if folder.links or described else []
    if folder.links:
        lines.append(f"table = {one_or_list([folder.spelled(one) for one in folder.links])}")
    if described:
        pairs = [(listed([":".join(one.a), ":".join(one.b)]), printable(one.reason)) for one in described]
        lines += ["pairs = [", *(f"    {pair},  # {reason}" for pair, reason in pairs), "]"]
    return [*lines, ""] if lines else []


def known_lines(folder: Folder, described: list[Described], guess: bool = False) -> list[str]:
    """Returns the tables of what the files say: the report, the devices, the collectors and the links."""
    report, collectors = collectors_of(folder, guess)
    lines = [*comment(HEAD), *report, ""]
    for one in folder.devices:
        lines += device_lines(one, folder, guess)
    return [*lines, *collectors, *link_lines(folder, described)]


def project_text(path: Path) -> str:
    """Returns the text of a project for a folder."""
    folder = look_at(path)
    described, unsure = described_links(topology_of_project(project_of(known_lines(folder, [], True), path)))
    around = surroundings(project_of(known_lines(folder, described, True), path))
    give_roles(around)
    around.unlinked = [":".join(node) for node in unsure]
    proposed = traffic_of(around)
    lines = known_lines(folder, described) + role_lines(around) + traffic_lines(proposed, around) + file_lines(folder)
    return "\n".join(lines).rstrip("\n") + "\n"
