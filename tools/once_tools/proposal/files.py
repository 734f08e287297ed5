"""What the files of a folder are: configurations of devices and collectors, and outputs of commands."""
from __future__ import annotations

import enum
import re
from dataclasses import dataclass, field
from pathlib import Path

from once_tools.load import APART, SURE, scores
from once_tools.model import Device, Unusable
from once_tools.paths.interfaces import read_interfaces
from once_tools.paths.links import COLUMNS, read_neighbours
from once_tools.paths.routes import Tables, read_routes
from once_tools.paths.setup import CAPTURING
from once_tools.readers import READERS
from once_tools.source import Source, read_source

SKIPPED = {".toml", ".md", ".pcap", ".pcapng", ".part", ".py", ".sh"}
# Names of files that say what is in them, and not of which device it is.
GENERAL = re.compile(r"(pmacctd|uacctd|nfacctd|nfcapd|softflowd|ovsdb|conf|config|configuration|running-?config|startup-?config|"
                     r"show|display|export|ip|addr(ess(es)?)?|routes?|lldp|cdp|neighbou?rs?|interfaces?)", re.I)


# Names of copies that editors and people keep.
COPY = re.compile(r"(\.(bak|old|orig|save|backup|copy|\d+)|~)$|\b(old|backup|copy)\b", re.I)
COLLECTING = ("nfacctd", "nfcapd")
# What a meter on a host is asked for if no file names the interface that it meters.
INTERFACE = {"interfaces": "eth0"}


class Output(enum.Enum):
    """An output of a command, or a table that a user keeps; the value is the member of the project that names it."""

    ADDRESSES = "addresses"
    ROUTES = "routes"
    NEIGHBOURS = "lldp"
    LINKS = "table"


@dataclass
class Found:
    """A device or collector with its files. `kinds` has several entries if it is not clear of which kind the configuration
    is, the likeliest first and read, and none if there is no configuration; `options` are those without which it is not read,
    as a guess; `plain` is the kind of a device of which outputs were found."""

    name: str
    path: Path | None = None
    kinds: list[str] = field(default_factory=list)
    device: Device | None = None
    trouble: str = ""
    options: dict[str, str] = field(default_factory=dict)
    named: list[Path] = field(default_factory=list)
    outputs: dict[Output, list[Path]] = field(default_factory=dict)
    plain: str = ""


@dataclass
class Folder:
    """What was found in a folder. `twins` are second texts of a device, each with the device's name."""

    path: Path
    devices: list[Found] = field(default_factory=list)
    collectors: list[Found] = field(default_factory=list)
    links: list[Path] = field(default_factory=list)
    others: list[Path] = field(default_factory=list)
    twins: list[tuple[Path, str]] = field(default_factory=list)

    def kind_of(self, one: Found, guess: bool) -> str:
        """Returns the line of the kind of a device or collector. An unclear kind is left to the user, or guessed."""
        if len(one.kinds) > 1 and not guess:
            return f"kind = \"?\"  # write one of: {', '.join(one.kinds)}"
        is_host = bool(one.plain) and bool(one.kinds) and one.kinds[0] in CAPTURING
        kind = one.plain if is_host or not one.kinds else one.kinds[0]
        return f'kind = "{kind}"' + (f'\nmeter = "{one.kinds[0]}"' if is_host else "")

    def spelled(self, path: Path) -> str:
        """Returns a file's name as the project names it."""
        return str(path.relative_to(self.path))


def files_of(folder: Path) -> list[Path]:
    """Returns the files of a folder that may be read, two levels deep."""
    return [path for path in sorted([*folder.glob("*"), *folder.glob("*/*")])
            if path.is_file() and not path.name.startswith(".") and path.suffix not in SKIPPED]


def kinds_of(source: Source) -> list[str]:
    """Returns the kinds that a configuration may be of: one if it is sure, none if it is of no kind."""
    found = [one for one in scores(source.text) if one[0] > SURE]
    return [kind for score, kind in found if found[0][0] - score < APART]


def is_link_table(source: Source) -> bool:
    """Returns whether a text is a CSV table of links."""
    return set(COLUMNS) <= {cell.strip() for cell in source.lines()[0].split(",")}


def output_of(source: Source) -> Output | None:
    """Returns which output of a command a text is, as the readers of outputs find; None if they read nothing."""
    if is_link_table(source):
        return Output.LINKS
    try:
        if read_neighbours(source):
            return Output.NEIGHBOURS
    except Unusable:
        pass
    try:
        if list(read_interfaces(source)):
            return Output.ADDRESSES
    except Unusable:
        pass
    try:
        tables = Tables()
        read_routes(source, tables)
        return Output.ROUTES if tables.by_vrf else None
    except Unusable:
        return None


def plain_kind(source: Source, output: Output) -> str:
    """Returns the kind of a device of which an output was found: frr, linux, or router."""
    text = source.text.lstrip()
    if output is Output.ROUTES and text.startswith("{") and '"nexthops"' in text:
        return "frr"
    return "linux" if text.startswith("[") else "router"


def name_of(path: Path, folder: Path) -> str:
    """Returns the name that a file gives its device: what is before the first dot, or the folder's name if this is the name
    of a program or a command."""
    stem = path.name.split(".")[0] or path.name
    return path.parent.name if GENERAL.fullmatch(stem) and path.parent != folder else stem


def unused(name: str, taken: set[str]) -> str:
    """Returns a name that nothing has yet."""
    number, found = 2, name
    while found in taken:
        found, number = f"{name}-{number}", number + 1
    taken.add(found)
    return found


def read_configuration(source: Source, path: Path, kinds: list[str], folder: Folder, files: list[Path]) -> Found:
    """Returns what a configuration is read as, with the files of the folder that it names."""
    found = Found(name_of(path, folder.path), path, kinds)
    found.named = [one for one in files if one != path and re.search(rf"[/\s:=]{re.escape(one.name)}\b", source.text)]
    sources = [source, *(read_source(one, folder.spelled(one)) for one in found.named)]
    guesses: list[dict[str, str]] = [{}, INTERFACE] if kinds[0] in CAPTURING else [{}]
    for options in guesses:
        try:
            found.device, found.options, found.trouble = READERS[kinds[0]].read(path.stem, sources, options), options, ""
            break
        except Unusable as why:
            found.trouble = found.trouble or why.finding.says
    found.name = found.device.hostname if found.device and found.device.hostname else found.name
    return found


def addresses_of(one: Found) -> set[str]:
    """Returns the addresses that a configuration gives its interfaces."""
    return {text.partition("/")[0] for each in (one.device.interfaces if one.device else []) for text in each.addresses}


def is_twin(one: Found, other: Found) -> bool:
    """Returns whether two configurations are of one device: they have one host name, or one file name in one folder, and not
    only addresses that the other one does not have."""
    hosts = [each.device.hostname if each.device else "" for each in (one, other)]
    together = one.path is not None and other.path is not None and one.path.parent == other.path.parent
    known = [addresses_of(each) for each in (one, other)]
    differ = all(known) and not known[0] & known[1]
    is_named_alike = one.kinds == other.kinds and one.name == other.name
    return is_named_alike and not differ and (hosts[0] == hosts[1] != "" or together and "" in hosts)


def without_twins(found: list[Found], folder: Folder) -> list[Found]:
    """Returns the configurations without second texts of one device: the text that is no copy by its name is kept, of several
    the one that has its host name, of several the longest."""
    def worth(one: Found) -> tuple[bool, bool, int]:
        is_copy = one.path is not None and COPY.search(one.path.name) is not None
        return not is_copy, bool(one.device and one.device.hostname), one.path.stat().st_size if one.path else 0

    kept: list[Found] = []
    for one in found:
        other = next((each for each in kept if is_twin(one, each)), None)
        if other is None:
            kept.append(one)
            continue
        best, rest = (one, other) if worth(one) > worth(other) else (other, one)
        kept[kept.index(other)] = best
        folder.twins += [(rest.path, best.name)] if rest.path else []
    return kept


def owner_of(path: Path, folder: Folder) -> Found | None:
    """Returns the device whose name is in a file's name or in that of its folder: the longest name."""
    text = folder.spelled(path)
    found = [one for one in folder.devices
             if re.search(rf"(?<![A-Za-z0-9]){re.escape(one.name)}(?![A-Za-z0-9])", text)]
    return max(found, key=lambda one: len(one.name)) if found else None


def add_outputs(outputs: list[tuple[Path, Source, Output]], folder: Folder, taken: set[str]) -> None:
    """Gives each output to its device. Addresses and routes of no known device make one; neighbours do not."""
    for path, source, output in sorted(outputs, key=lambda one: one[2] is Output.NEIGHBOURS):
        owner = owner_of(path, folder)
        if output is Output.LINKS:
            folder.links.append(path)
            continue
        if owner is None and output is not Output.NEIGHBOURS:
            owner = Found(unused(name_of(path, folder.path), taken))
            folder.devices.append(owner)
        if owner is None:
            folder.others.append(path)
            continue
        owner.outputs.setdefault(output, []).append(path)
        kind = plain_kind(source, output)
        owner.plain = kind if kind == "frr" or not owner.plain else owner.plain


def first_file(one: Found) -> Path:
    """Returns the first of the files of a device."""
    return min([*([one.path] if one.path else []), *(path for paths in one.outputs.values() for path in paths)])


def look_at(path: Path) -> Folder:
    """Returns what the files of a folder are."""
    folder, files = Folder(path), files_of(path)
    configurations: list[Found] = []
    outputs: list[tuple[Path, Source, Output]] = []
    for file in files:
        try:
            source = read_source(file, folder.spelled(file))
            kinds = kinds_of(source)
            output = None if kinds else output_of(source)
        except Unusable:
            kinds, output = [], None
        if kinds:
            configurations.append(read_configuration(source, file, kinds, folder, files))
        elif output:
            outputs.append((file, source, output))
        else:
            folder.others.append(file)
    taken: set[str] = set()
    read = {one.path for one in configurations}
    for one in without_twins(configurations, folder):
        one.name, one.named = unused(one.name, taken), [other for other in one.named if other not in read]
        collects = one.device.listeners and not one.device.points if one.device else one.kinds[0] in COLLECTING
        (folder.collectors if collects else folder.devices).append(one)
    add_outputs(outputs, folder, taken)
    folder.devices.sort(key=first_file)
    named = {other for one in [*folder.devices, *folder.collectors] for other in one.named}
    folder.others = [one for one in folder.others if one not in named]
    return folder
