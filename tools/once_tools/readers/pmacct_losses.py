"""Settings of pmacct's daemons that bound what they hold: beyond the bound records or packets are lost.

What each does is from CONFIG-KEYS of pmacct 1.7.7, and the words of the log from the program. CONFIG-KEYS says that with
`imt_mem_pools_number: 0` the table grows as it needs; the running pmacctd 1.7.7 takes 0 for the default.
"""
from __future__ import annotations

from typing import Callable, Sequence

from once_tools.model import Place
from once_tools.readers.log import Log
from once_tools.readers.pmacct_settings import Plugin, Settings
from once_tools.readers.trees import Setting

WRITING = ("print", "mysql", "pgsql", "sqlite3", "kafka", "amqp", "mongodb")
WRITERS = ("print_max_writers", "sql_max_writers", "kafka_max_writers", "amqp_max_writers")
SOCKETS = ("nfacctd_pipe_size", "pmacctd_pipe_size", "tee_pipe_size")
# What holds where nothing is set.
USUAL_POOLS, USUAL_POOL, USUAL_PIPE = 16, 8192, 4_000_000


class Losses:
    """Reports the bounds of a daemon's plugins. `bears` returns the exporters that a plugin's losses bear on."""

    def __init__(self, settings: Settings, log: Log, bears: Callable[[Plugin | None], tuple[str, ...]]) -> None:
        self.settings, self.log, self.bears = settings, log, bears

    def report(self, plugins: Sequence[Plugin], place: Place) -> None:
        """Reports the bounds of some plugins; `place` is that of the list of plugins."""
        for plugin in plugins:
            if plugin.kind == "memory":
                self._table(plugin, place)
            if plugin.kind in WRITING:
                self._writers(plugin)
            self._queue(plugin)
        for key in SOCKETS:
            line = self.settings.last(key)
            if line and self._number(line) is not None:
                self.log.note(line.place, f"asks for a socket buffer of {line.value} octets, which the system may reduce "
                              "(net.core.rmem_max): messages that come while it is full are lost",
                              "watch `drops` in /proc/net/udp", exporters=self.bears(None))

    def _number(self, line: Setting) -> int | None:
        """Returns the number of a setting; what is no number is reported."""
        if line.value.isascii() and line.value.isdigit() and len(line.value) < 19:
            return int(line.value)
        self.log.unknown(line.place, f"{line.key}: {line.value}")
        return None

    def _table(self, plugin: Plugin, place: Place) -> None:
        """Reports how much the table of the plugin `memory` holds."""
        number, size = (self.settings.last(key, plugin.name) for key in ("imt_mem_pools_number", "imt_mem_pools_size"))
        pools = self._number(number) if number else USUAL_POOLS
        octets = self._number(size) if size else USUAL_POOL
        where = (number or size).place if number or size else place  # type: ignore[union-attr]
        if pools is not None and octets is not None:
            usual = "" if number or size else " (the default)"
            usual = usual if pools else " (pmacct 1.7.7 takes 0 for the default)"
            pools = pools or USUAL_POOLS
            self.log.premise(where, f"the table of {plugin.name} has at most {pools} pools of {octets} octets{usual}: records "
                             "that do not fit are lost, and all are taken to fit",
                             "write a larger imt_mem_pools_number, and watch the log for `Unable to allocate more memory "
                             "pools`",
                             exporters=self.bears(plugin))

    def _writers(self, plugin: Plugin) -> None:
        """Reports how many processes of a plugin write at once. All keys of `WRITERS` set one number."""
        for line in (self.settings.last(key, plugin.name) for key in WRITERS):
            if line and self._number(line) is not None:
                self.log.premise(line.place, f"while {line.value} processes of {plugin.name} are writing, what the next one "
                                 "should write is lost: the backend is taken to be fast enough",
                                 "watch the log for `Maximum number of writer processes reached`",
                                 exporters=self.bears(plugin))

    def _queue(self, plugin: Plugin) -> None:
        """Reports the queue between the core process and a plugin."""
        pipe, buffer = (self.settings.last(key, plugin.name) for key in ("plugin_pipe_size", "plugin_buffer_size"))
        sizes = [self._number(line) if line else None for line in (pipe, buffer)]
        octets = sizes[0] if pipe else USUAL_PIPE
        line = pipe or buffer
        if line and octets is not None and (sizes[1] is not None or not buffer):
            says = f"the queue to {plugin.name} has {octets} octets: what comes while it is full is lost"
            todo = "watch the log for `Missing data detected`"
            if octets < max(USUAL_PIPE, sizes[1] or 0):
                which = f"its buffer of {sizes[1]}" if octets < (sizes[1] or 0) else f"the usual {USUAL_PIPE}"
                self.log.premise(line.place, f"{says}. It is smaller than {which}, and is taken never to be full",
                                 f"write a larger plugin_pipe_size, and {todo}", exporters=self.bears(plugin))
            else:
                self.log.note(line.place, says, todo, exporters=self.bears(plugin))
        mark = self.settings.last("plugin_pipe_zmq_hwm", plugin.name)
        if mark and self._number(mark):
            self.log.premise(mark.place, f"at most {mark.value} messages are queued for {plugin.name}: what comes beyond them "
                             "is lost, and the queue is taken never to be full", "leave plugin_pipe_zmq_hwm out",
                             exporters=self.bears(plugin))
