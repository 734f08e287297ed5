"""nfcapd (nfdump): a collector, by its command line or unit, with the options of 1.6 (-l) or of 1.7 (-w)."""
from __future__ import annotations

import getopt
import re
from typing import Mapping

from once_tools.model import Destination, Device, Exporter, Listener, Topic, Unusable
from once_tools.readers.command_line import Command, commands_of
from once_tools.readers.log import Log
from once_tools.readers.records import destination_name
from once_tools.source import Source

OPTIONS = "46C:b:B:DeEf:g:hI:i:jJ:m:M:n:p:P:R:S:s:t:u:vVw:x:yzX"
OLD_OPTIONS = "46a:b:B:DeEf:g:hI:jJ:l:M:n:p:P:R:S:s:t:T:u:vVwx:yzXr"
REPEATER = "repeater"


class _Reading:
    """Reads one command line."""

    def __init__(self, name: str, sources: list[Source], command: Command) -> None:
        self.place = command.place
        self.log = Log(name)
        self.device = Device(name, "nfcapd", [one.name for one in sources], findings=self.log.findings)
        old = any(re.match(r"-[a-zA-Z46]*l$", word) for word in command.words)
        try:
            self.given, rest = getopt.gnu_getopt(command.words, OLD_OPTIONS if old else OPTIONS)
        except getopt.GetoptError as error:
            raise Unusable(self.place, error.msg, "`nfcapd -h` lists its options") from None
        if rest:
            self.log.unknown(self.place, rest[0])
        self.options = dict(self.given)

    def values(self, option: str) -> list[str]:
        return [value for name, value in self.given if name == option]

    def read(self) -> Device:
        text = self.options.get("-p", "9995")
        if not re.fullmatch("[0-9]{1,5}", text) or not 0 < int(text) < 65536:
            raise Unusable(self.place, f"-p: {text} is not a port", "write a number from 1 to 65535")
        if "-p" not in self.options:
            self.log.note(self.place, "without -p nfcapd listens at port 9995")
        listener = Listener(f"udp {text}", [(self.options.get("-b", "*"), int(text), "udp")], self.place,
                            self.accepts())
        if "-R" in self.options:
            self.device.exporters = [self.repeater()]
            listener.forwards = [REPEATER]
        self.device.listeners = [listener]
        self.report_rest()
        return self.device

    def accepts(self) -> list[str] | None:
        """Returns the senders that -n names, None if any may send."""
        senders = []
        for text in self.values("-n"):
            parts = text.split(",")
            if len(parts) != 3:
                raise Unusable(self.place, f"-n: {text} is not a source", "write -n IDENT,ADDRESS,DIRECTORY")
            senders.append(parts[1])
        if not senders or "-M" in self.options:
            return None
        self.log.note(self.place, f"records of exporters other than {', '.join(senders)} are ignored")
        return senders

    def repeater(self) -> Exporter:
        found = Exporter(REPEATER, [], self.place)
        for text in self.values("-R"):
            address, _, port = text.partition("/")
            port = port or "9995"
            if not address or not re.fullmatch("[0-9]{1,5}", port) or not 0 < int(port) < 65536:
                raise Unusable(self.place, f"-R: {text} is not a receiver", "write -R HOST/PORT")
            found.destinations.append(Destination(destination_name(address, int(port)), address, int(port), self.place))
        names = ", ".join(f"{one.address}:{one.port}" for one in found.destinations)
        self.log.note(self.place, f"-R: each record is forwarded as it is, to {names}", exporters=(REPEATER,))
        return found

    def report_rest(self) -> None:
        rate = self.options.get("-s", "1")
        if rate not in ("1", "-1", "0"):
            self.log.lost(self.place, f"-s {rate}: nfcapd multiplies packets and octets by {rate.lstrip('-')}, but the "
                          f"document adds them up as "
                          "they are", "leave -s out", Topic.COUNTERS)
        if "-J" in self.options:
            self.log.lost(self.place, "-J: records that are sent to a multicast group come in too, but the document "
                          "has no link for them",
                          "send to an address of the collector")
        if "-f" in self.options:
            self.log.lost(self.place, "-f: records come from a file, so no exporter is linked to this collector",
                          "name the address and port that exporters send to as `listen` of the collector")
        if "-C" in self.options and self.options["-C"] != "none":
            self.log.lost(self.place, "-C: what the configuration file sets is not read",
                          "give all options on the command line", Topic.UNKNOWN)


class Nfcapd:
    kind = "nfcapd"
    title = "nfcapd (nfdump)"
    how_to_get = "systemctl cat nfdump, or ps -o args= -C nfcapd"
    certainty = "certain"

    def detect(self, text: str) -> int:
        return 95 if re.search(r"(?m)^(ExecStart=)?\S*\bnfcapd\s+-", text) else 0

    def read(self, name: str, sources: list[Source], options: Mapping[str, str]) -> Device:
        commands = commands_of(sources, "nfcapd")
        if not commands:
            raise Unusable(sources[0].place(0), "has no command line of nfcapd",
                           "give its unit, or the line that starts it")
        if len(commands) > 1:
            raise Unusable(commands[1].place, f"is a second nfcapd beside line {commands[0].place.line}",
                           "make each a collector of its own in the project")
        return _Reading(name, sources, commands[0]).read()


READER = Nfcapd()
