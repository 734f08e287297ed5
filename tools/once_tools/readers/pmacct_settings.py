"""Settings of the daemons of pmacct, in force as pmacct 1.7.7 applies them.

The last line of a key counts: a line without `[PLUGIN]` sets a key for all plugins, also after a line of one plugin
(measured with pmacctd 1.7.7).
"""
from __future__ import annotations

import re
from dataclasses import dataclass
from typing import Iterable, Sequence

from once_tools.model import Place, Unusable
from once_tools.readers.log import Log
from once_tools.readers.trees import Setting, settings
from once_tools.source import Source

PLUGIN = re.compile(r"\s*(\w+)\s*(?:\[([^\]]*)\])?\s*")
HARMLESS = re.compile(
    r"daemonize|debug|debug_internal_msg|pidfile|syslog|logfile|core_proc_name|proc_name|proc_priority|plugin_exit_any|"
    r"propagate_signals|maps_(entries|row_len|refresh|index)|plugin_(pipe|buffer)_size|plugin_pipe_zmq(_\w+)?|"
    r"(nfacctd|pmacctd)_pipe_size|"
    r"(timestamps|files|print|imt|sql|kafka|amqp|avro|geoip|geoipv2|bgp|bmp|rpki|isis)_(?!preprocess)\w+|"
    r"(bgp|bmp|isis)_daemon|ports_file|use_ip_next_hop")
SWITCHES = ("promisc", "nfprobe_dont_cache", "nfacctd_renormalize", "tee_transparent", "pmacctd_renormalize")
# Pairs of keys that mean the same.
OTHER_NAMES = {"interface": "pcap_interface"}
# Keys of the daemon: pmacct applies a line with [PLUGIN] to the whole daemon.
GLOBAL = re.compile(r"plugins|(pcap|nfacctd)_\w+|snaplen|promisc|sampling_map|pmacctd_\w+")


@dataclass(frozen=True)
class Plugin:
    """A plugin: its kind, its name, and the name under which settings refer to it."""

    kind: str
    name: str


class Settings:
    """The settings of a text, as they are in force."""

    def __init__(self, found: Sequence[Setting], others: Sequence[Place]) -> None:
        self.lines = [self.in_force(one) for one in found]
        self.others = others

    def in_force(self, one: Setting) -> Setting:
        key = OTHER_NAMES.get(one.key.lower(), one.key.lower())
        return Setting(key, one.value, one.place, "" if GLOBAL.fullmatch(key) else one.plugin)

    def last(self, key: str, plugin: str | None = None) -> Setting | None:
        """Returns the line of a key that is in force for a plugin, or for the daemon."""
        for one in reversed(self.lines):
            if one.key == key and (not one.plugin or plugin is not None
                                   and one.plugin in (plugin, f"default_{plugin}")):
                return one
        return None

    def lines_in_force(self, keys: Iterable[str], plugins: Iterable[str]) -> list[Setting]:
        """Returns the lines of keys that are in force for the daemon or for one of the plugins."""
        found = [self.last(key, plugin) for key in keys for plugin in (None, *plugins)]
        return [one for one in found if one]

    def own(self, key: str, plugin: str) -> Setting | None:
        """Returns the last line of a key that is for one plugin alone."""
        return next((one for one in reversed(self.lines) if one.key == key
                     and one.plugin in (plugin, f"default_{plugin}")), None)

    def value(self, key: str, usual: str = "", plugin: str | None = None) -> str:
        """Returns the value in force, or the usual one."""
        found = self.last(key, plugin)
        return found.value if found else usual

    def is_true(self, key: str, usual: bool, plugin: str | None = None) -> bool:
        """Returns whether a switch is on; pmacct takes `true` alone for true."""
        found = self.last(key, plugin)
        return found.value.lower() == "true" if found else usual

    def first(self, *keys: str) -> Place | None:
        """Returns the place of the first line of one of the keys."""
        return next((one.place for one in self.lines if one.key in keys), None)

    def number(self, key: str, least: int, most: int, plugin: str | None = None) -> int | None:
        """Returns the number of a key, None if nothing is said. Raises Unusable."""
        found = self.last(key, plugin)
        if found is None:
            return None
        if not re.fullmatch("[0-9]{1,10}", found.value) or not least <= int(found.value) <= most:
            raise Unusable(found.place, f"{key} is not a number from {least} to {most}", "write such a number")
        return int(found.value)


def settings_of(source: Source, wanted: re.Pattern[str], title: str) -> Settings:
    """Returns the settings of a text. Raises Unusable if none of them is of the kind that is wanted."""
    found = Settings(*settings(source))
    if not any(wanted.fullmatch(one.key) for one in found.lines):
        raise Unusable(source.place(0), f"has no setting of {title}",
                       "give the file that the daemon is started with (-f)")
    return found


def plugins_of(found: Settings) -> list[Plugin]:
    """Returns the plugins in the order of the setting, those without a name under the name of their kind."""
    line = found.last("plugins")
    plugins = []
    for text in line.value.split(",") if line else []:
        match = PLUGIN.fullmatch(text)
        if match is None and text.strip():
            raise Unusable(line.place if line else Place(""), f"{text.strip()!r} is not a plugin",
                           "write KIND or KIND[NAME]")
        if match:
            plugins.append(Plugin(match[1], match[2] or match[1]))
    names = [one.name for one in plugins]
    for name in names:
        if names.count(name) > 1 and line:
            raise Unusable(line.place, f"two plugins are named {name}", "give each a name of its own, as nfprobe[one]")
    return plugins


def report_unknown(found: Settings, plugins: Sequence[Plugin], known: set[str], log: Log) -> None:
    """Reports lines that are no settings, keys that are not known, and settings of plugins that do not exist."""
    for place in found.others:
        log.lost(place, "this line is not a setting, and pmacct ignores it", "write KEY: VALUE, or KEY[PLUGIN]: VALUE")
    names = {one.name for one in plugins} | {f"default_{one.name}" for one in plugins}
    for one in found.lines:
        if not one.value:
            log.lost(one.place, f"{one.key} has no value", "write a value, or take the line out")
        elif one.key in SWITCHES and one.value.lower() not in ("true", "false"):
            log.lost(one.place, f"{one.key} is neither true nor false; it is taken for false", "write true or false")
        if one.plugin and one.plugin not in names:
            log.lost(one.place, f"no plugin is named {one.plugin}, and pmacct ignores the setting",
                     f"name one of the plugins: {', '.join(sorted(plugin.name for plugin in plugins)) or 'none'}")
        elif one.key not in known and not HARMLESS.fullmatch(one.key):
            log.unknown(one.place, one.key, sorted(known))


# What `networks_file_filter: true` does (measured with pmacctd 1.7.7).
NETWORKS_FILTER = ("addresses outside of networks_file are counted as 0.0.0.0 or ::, but the document has each address "
                   "as it is")


def is_networks_filter(one: Setting) -> bool:
    """Returns whether a line makes networks_file a filter."""
    return one.key == "networks_file_filter" and one.value.lower() == "true"


def report_others(sources: Sequence[Source], lines: Sequence[Setting], log: Log) -> None:
    """Reports texts beside the settings that no line names, so that they are not read."""
    named = {line.value.rsplit("/", 1)[-1] for line in lines}
    for source in sources[1:]:
        if source.name.rsplit("/", 1)[-1] not in named:
            log.lost(Place(source.name), "the first file does not name this one, so it is not read", "give each daemon a "
                     "device or collector of its own, with its settings as the first file of `config`")


def report_repeated(found: Settings, log: Log) -> None:
    """Notes lines that a later line of the same key overrides."""
    later: dict[tuple[str, str], int] = {}
    repeated = []
    for one in reversed(found.lines):
        line = max(later.get((one.key, ""), 0), later.get((one.key, one.plugin), 0))
        if line and not HARMLESS.fullmatch(one.key):
            repeated.append((one.place, line))
        later[(one.key, one.plugin)] = max(one.place.line, later.get((one.key, one.plugin), 0))
    for place, line in reversed(repeated):
        log.note(place, f"line {line} sets the same key and is in force, since the last line counts")


def other_source(sources: Sequence[Source], path: str) -> Source | None:
    """Returns the text of a file that a setting names, found by the last part of its path."""
    name = path.rsplit("/", 1)[-1]
    return next((one for one in sources[1:] if one.name.rsplit("/", 1)[-1] == name), None)
