"""Open vSwitch: IPFIX of bridges, from the database of the switch.

A packet is sampled at a port of a bridge where it comes in and where it leaves. With Open vSwitch 3.1.0,
`enable-input-sampling` and `enable-output-sampling` were measured to do the opposite of what the manual says: `true`
turns sampling off.
"""
from __future__ import annotations

import re
from typing import Mapping

from once_tools.model import (Cache, Destination, Device, Direction, Exporter, Interface, Place, Point, Topic, Unusable)
from once_tools.readers import filters
from once_tools.readers.log import Log, sampling
from once_tools.readers.ovsdb import TABLES, Database, Row, read_database
from once_tools.readers.records import ADDRESSES, PORTS, destination_name, fields
from once_tools.source import Source

KEYS = ("ipVersion", *ADDRESSES, "protocolIdentifier", "ipClassOfService")
SWITCHES = {Direction.INGRESS: "enable-input-sampling", Direction.EGRESS: "enable-output-sampling"}
MEASURED = "3.1.0"
USUAL_RATE = 400
COLUMNS = {"_uuid", "_version", "cache_active_timeout", "cache_max_flows", "external_ids", "obs_domain_id",
           "obs_point_id",
           "other_config", "sampling", "targets", "stats_interval", "template_interval"}
OPTIONS = {*SWITCHES.values(), "enable-tunnel-sampling", "virtual_obs_id"}
NETFLOW_COLUMNS = {"_uuid", "_version", "active_timeout", "add_id_to_interface", "engine_id", "engine_type",
                   "external_ids", "targets"}
SET_COLUMNS = {"_uuid", "_version", "bridge", "external_ids", "id", "ipfix"}
TYPES = {"", "system", "internal", "tap", "patch", "geneve", "gre", "ip6gre", "vxlan", "lisp", "stt", "erspan", "ip6erspan",
         "gtpu", "bareudp", "srv6", "dpdk", "dpdkvhostuser", "dpdkvhostuserclient", "afxdp", "afxdp-nonpmd", "dummy",
         "dummy-pmd"}


class _Reading:
    """Reads one switch."""

    def __init__(self, name: str, sources: list[Source], options: Mapping[str, str]) -> None:
        self.database: Database = read_database(sources)
        self.log = Log(name)
        self.device = Device(name, "openvswitch", [one.name for one in sources], findings=self.log.findings)
        self.options = options
        switch = self.database.rows("Open_vSwitch")
        self.version = switch[0].text("ovs_version") if switch else ""
        self.used: set[str] = set()
        self.known: set[str] = set()

    def at(self, row: Row) -> Place:
        """Returns the file of a row: a database has no lines that a user writes."""
        return Place(row.place.file)

    def read(self) -> Device:
        self.check_tables()
        for bridge in sorted(self.database.rows("Bridge"), key=lambda row: row.text("name")):
            self.bridge(bridge)
        for row in self.database.rows("Flow_Sample_Collector_Set"):
            self.collector_set(row)
        for row in self.database.rows("IPFIX"):
            if row.uuid not in self.used:
                self.log.note(self.at(row), f"the IPFIX row with targets {', '.join(row.texts('targets')) or 'none'} "
                              f"is used by no "
                              "bridge: it meters nothing")
        return self.device

    def check_tables(self) -> None:
        """Reports tables that are not known or not here. Raises Unusable if a bridge of the switch is missing."""
        for place, table in self.database.unknown:
            self.log.unknown(place, f"table {table}" if table else "a table with these columns",
                             [f"table {one}" for one in TABLES])
        if "Flow_Sample_Collector_Set" not in self.database.tables:
            self.log.premise(Place(self.device.files[0]), "no OpenFlow rule samples packets: the table "
                             "Flow_Sample_Collector_Set, which would show it, is not here", "give this table too")
        for switch in self.database.rows("Open_vSwitch"):
            for uuid in switch.texts("bridges"):
                if self.database.row("Bridge", uuid) is None:
                    raise Unusable(self.at(switch), f"the switch names a bridge {uuid} that is not here",
                                   "give the table Bridge whole")

    def bridge(self, bridge: Row) -> None:
        name = bridge.text("name")
        interfaces = self.interfaces(bridge)
        for uuid in bridge.texts("ipfix"):
            row = self.database.row("IPFIX", uuid)
            if row is None:
                raise Unusable(self.at(bridge), f"Bridge {name} names an IPFIX row that is not here",
                               "give the table IPFIX too")
            self.used.add(uuid)
            self.ipfix(name, row, interfaces)
        for uuid in bridge.texts("netflow"):
            self.netflow(name, bridge, uuid, interfaces)
        if bridge.texts("sflow"):
            self.log.note(self.at(bridge), f"Bridge {name} has sFlow, which sends samples of packets and no flow "
                          f"records")
        if bridge.texts("ipfix"):
            self.report_bridge(name, bridge)

    def interfaces(self, bridge: Row) -> list[str]:
        """Returns the interfaces of a bridge at which packets are seen, its local port last."""
        name, found, patches = bridge.text("name"), [], []
        for uuid in bridge.texts("ports"):
            port = self.database.row("Port", uuid)
            if port is None:
                raise Unusable(self.at(bridge), f"Bridge {name} names a port that is not here",
                               "give the table Port too")
            rows = [row for row in (self.database.row("Interface", one) for one in port.texts("interfaces"))
                    if row is not None]
            if len(rows) != len(port.texts("interfaces")) or not rows:
                raise Unusable(self.at(port), f"Port {port.text('name')} names an interface that is not here",
                               "give the table Interface too")
            if len(rows) > 1:
                names = sorted(row.text("name") for row in rows)
                self.log.note(self.at(port), f"Port {port.text('name')} is a bond: its packets cross "
                              f"{' or '.join(names)}")
            patches += [row for row in rows if row.text("type") == "patch"]
            found += [row for row in rows if row.text("type") != "patch"]
        self.report_patches(bridge, patches)
        found.sort(key=lambda row: (row.text("name") == name, row.number("ofport") or 1 << 16, row.text("name")))
        for row in found:
            self.report_interface(row)
            if row.text("name") not in self.known:
                self.device.interfaces.append(Interface(row.text("name"), self.at(row), index=row.number("ifindex")))
        self.known |= {row.text("name") for row in found}
        return [row.text("name") for row in found]

    def report_interface(self, row: Row) -> None:
        if row.text("type") not in TYPES:
            self.log.unknown(self.at(row), f"type {row.text('type')} of Interface {row.text('name')}", sorted(TYPES))
        if row.number("ofport") == -1:
            self.log.note(self.at(row), f"Open vSwitch could not open Interface {row.text('name')}: no packets are seen "
                          "there")

    def report_patches(self, bridge: Row, patches: list[Row]) -> None:
        if patches and bridge.texts("ipfix"):
            names = ", ".join(sorted(row.text("name") for row in patches))
            self.log.note(self.at(bridge), f"{names} of Bridge {bridge.text('name')} is a patch port: packets that "
                          f"pass it are seen "
                          "where they come into the first bridge and where they leave the last one, not at the patch "
                          "port")

    def ipfix(self, name: str, row: Row, interfaces: list[str]) -> None:
        """Adds the meter of a bridge."""
        place = self.at(row)
        self.report_unknown(name, row)
        exporter = self.exporter(name, row, "IPFIX", 10)
        direction = self.direction(name, row)
        if direction is None:
            self.log.note(place, f"IPFIX of Bridge {name} samples neither where packets come in nor where they leave: "
                          f"it meters nothing")
            return
        rate = self.rate(name, row)
        self.device.exporters.append(exporter)
        timeout, flows = row.number("cache_active_timeout") or 0, row.number("cache_max_flows") or 0
        cached = timeout > 0 and flows > 0
        settings = {"maxFlows": flows, "activeTimeout": timeout} if cached else {}
        selections = []
        for version in (4, 6):
            cache = f"{name} IPv{version}"
            self.device.caches.append(Cache(cache, "timeout" if cached else "immediate", fields(KEYS, version, place),
                                            [name], place,
                                            settings))
            selections.append(filters.whole_family(cache, version, cache, place))
        self.device.points.append(Point(name, interfaces, direction, selections, place, [place] * len(interfaces),
                                        sampling(rate) if rate > 1 else None, row.number("obs_domain_id") or 0))
        self.report_records(name, place)

    def report_records(self, name: str, place: Place) -> None:
        self.log.note(place, "records of TCP, UDP and SCTP have ports and others do not: ports are left out of the "
                      "flow keys",
                      exporters=(name,))
        self.log.note(place, "records have totals since the beginning (85, 86) beside octetDeltaCount and "
                      "packetDeltaCount, 8 octets each; "
                      "the latter are counted", exporters=(name,))
        self.log.premise(place, "every packet is sampled: OpenFlow rules are not read", "", Topic.OTHER, None, (name,))

    def exporter(self, name: str, row: Row, what: str, version: int) -> Exporter:
        found = Exporter(name, [], self.at(row))
        for text in row.texts("targets"):
            words = re.fullmatch(r"\[([^\]\s]+)\]:([0-9]{1,5})|([^:\[\]\s]+):([0-9]{1,5})", text)
            if not words or not 0 < int(words[2] or words[4]) < 65536:
                raise Unusable(self.at(row), f"{what} of {name}: {text!r} is not a target",
                               "write targets as ADDRESS:PORT")
            address, port = words[1] or words[3], int(words[2] or words[4])
            found.destinations.append(Destination(destination_name(address, port), address, port, self.at(row), "udp",
                                                  "", version))
        if not found.destinations:
            raise Unusable(self.at(row), f"{what} of {name} has no targets", "set targets to ADDRESS:PORT")
        if len(found.destinations) > 1:
            self.log.note(self.at(row), f"{what} of {name} has {len(found.destinations)} targets: each gets each "
                          f"record",
                          exporters=(name,))
        return found

    def rate(self, name: str, row: Row) -> int:
        rate = row.number("sampling")
        if rate is None:
            self.log.lost(self.at(row), f"IPFIX of Bridge {name} has no sampling, so one packet out of {USUAL_RATE} is "
                          f"sampled, and a total "
                          "over a sample is not exact; the document meters all packets", "set sampling=1",
                          Topic.SAMPLER, 108, (name,))
            return USUAL_RATE
        if rate == 1:
            self.log.note(self.at(row), f"IPFIX of Bridge {name}: sampling 1: all packets", exporters=(name,))
        else:
            self.log.sampler(self.at(row), str(rate), (name,))
        return rate

    def direction(self, name: str, row: Row) -> Direction | None:
        """Returns where packets are sampled, None if nowhere."""
        config, on = row.mapping("other_config"), []
        for direction, key in SWITCHES.items():
            value = config.get(key)
            if value is not None and value not in ("true", "false"):
                self.log.lost(self.at(row), f"IPFIX of Bridge {name}: {key} is {value!r}, neither true nor false; the "
                              f"document samples there",
                              "set it to true or false", Topic.UNKNOWN, None, (name,))
            if not self.is_off(name, row, key, value):
                on.append(direction)
        if len(on) == 2:
            self.log.warning(self.at(row), f"IPFIX of Bridge {name}: packets are metered where they come in and where "
                             f"they leave, so each that "
                             "is forwarded counts twice, and one that is flooded once more for each port",
                             self.advice(), (name,))
            return Direction.BOTH
        if on == [Direction.EGRESS]:
            self.log.premise(self.at(row), f"IPFIX of Bridge {name}: packets are metered where they leave: one that is "
                             f"flooded or multicast counts "
                             "at each port that it leaves by", "", Topic.OTHER, None, (name,))
        return on[0] if on else None

    def advice(self) -> str:
        """Returns how sampling is turned off where packets leave."""
        key = f"other_config:{SWITCHES[Direction.EGRESS]}"
        if self.options.get("switches") == "manual":
            return f"set {key}=false"
        measured = f"set {key}=true, which turns sampling off in Open vSwitch 3.1.0, against its manual"
        return measured if self.version == MEASURED else f"{measured}; where the manual holds, set it to false"

    def is_off(self, name: str, row: Row, key: str, value: str | None) -> bool:
        """Returns whether a switch turns sampling off, and says what that rests on."""
        if value not in ("true", "false"):
            return False
        if self.options.get("switches") == "manual":
            self.log.premise(self.at(row), f"IPFIX of Bridge {name}: {key}={value} works as the manual says, which the "
                             f"project declares", "",
                             Topic.OTHER, None, (name,))
            return value == "false"
        effect = "turns sampling off" if value == "true" else "leaves sampling on"
        says = (f"IPFIX of Bridge {name}: {key}={value} {effect}: Open vSwitch 3.1.0 was measured to do the opposite of its "
                "manual")
        if self.version == MEASURED:
            self.log.note(self.at(row), says, exporters=(name,))
        else:
            version = f"version {self.version} was not measured" if self.version else "this database does not name its version"
            says = f"{says}; {version}"
            self.log.premise(self.at(row), says,
                             "look at the records' flow direction, and set `switches = \"manual\"` for the device if the "
                             "manual holds", Topic.OTHER, None, (name,))
        return value == "true"

    def report_columns(self, row: Row, known: set[str], exporters: tuple[str, ...] = ()) -> None:
        for column in sorted(set(row.columns) - known):
            self.log.unknown(self.at(row), column, sorted(known), exporters)

    def report_unknown(self, name: str, row: Row) -> None:
        self.report_columns(row, COLUMNS, (name,))
        for key, value in sorted(row.mapping("other_config").items()):
            if key not in OPTIONS:
                self.log.unknown(self.at(row), f"other_config:{key}", [f"other_config:{one}" for one in OPTIONS],
                                 (name,))
            elif key == "enable-tunnel-sampling" and value not in ("true", "false"):
                self.log.lost(self.at(row), f"IPFIX of Bridge {name}: {key} is {value!r}, neither true nor false; fields "
                              "of tunnels are left out of the flow keys", "set it to true or false", Topic.UNKNOWN,
                              None, (name,))
            elif key == "enable-tunnel-sampling" and value == "false":
                self.log.note(self.at(row), f"IPFIX of Bridge {name}: records have no fields of tunnels",
                              exporters=(name,))
        if row.mapping("other_config").get("enable-tunnel-sampling") != "false":
            self.log.note(self.at(row), f"IPFIX of Bridge {name}: records have fields of tunnels, which are of an "
                          f"enterprise and left out of the "
                          "flow keys", exporters=(name,))

    def report_bridge(self, name: str, bridge: Row) -> None:
        for uuid in bridge.texts("mirrors"):
            mirror = self.database.row("Mirror", uuid)
            what = f"mirror {mirror.text('name')}" if mirror else "a mirror"
            self.log.warning(self.at(bridge), f"Bridge {name} has {what}: a mirrored packet is sampled again where its "
                             f"copy leaves",
                             "sample where packets come in alone", (name,))

    def collector_set(self, row: Row) -> None:
        """Reports flow-based sampling, whose packets OpenFlow rules choose."""
        number = row.number("id")
        bridge = self.database.row("Bridge", row.text("bridge"))
        if bridge is None:
            raise Unusable(self.at(row), f"Flow_Sample_Collector_Set {number} names a bridge that is not here",
                           "give the table Bridge whole")
        self.report_columns(row, SET_COLUMNS)
        if not row.texts("ipfix"):
            self.log.note(self.at(row), f"Flow_Sample_Collector_Set {number} has no IPFIX: it exports nothing")
        for uuid in row.texts("ipfix"):
            ipfix = self.database.row("IPFIX", uuid)
            self.used.add(uuid)
            if ipfix is None:
                raise Unusable(self.at(row), f"Flow_Sample_Collector_Set {number} names an IPFIX row that is not here",
                               "give the table IPFIX too")
            name = f"{bridge.text('name')} collector set {number}"
            self.device.exporters.append(self.exporter(name, ipfix, "IPFIX", 10))
            self.log.lost(self.at(row), f"Flow_Sample_Collector_Set {number}: OpenFlow rules say which packets are "
                          f"sampled, and the document has "
                          "none of them", "meter with the column ipfix of a bridge", Topic.OTHER, None, (name,))

    def netflow(self, name: str, bridge: Row, uuid: str, interfaces: list[str]) -> None:
        """Adds NetFlow 5 of a bridge."""
        row = self.database.row("NetFlow", uuid)
        if row is None:
            raise Unusable(self.at(bridge), f"Bridge {name} names a NetFlow row that is not here",
                           "give the table NetFlow too")
        what, place = f"{name} NetFlow", self.at(row)
        self.report_columns(row, NETFLOW_COLUMNS, (what,))
        self.device.exporters.append(self.exporter(what, row, "NetFlow", 5))
        cache = f"{what} IPv4"
        keys = (*KEYS, *PORTS)
        timeout = row.number("active_timeout") or 0
        self.device.caches.append(Cache(cache, "timeout", fields(keys, 4, place, 4), [what], place,
                                        {"activeTimeout": timeout} if timeout > 0 else {}))
        self.device.points.append(Point(what, interfaces, Direction.INGRESS,
                                        [filters.whole_family(cache, 4, cache, place)], place,
                                        [place] * len(interfaces), None, row.number("engine_id") or 0))
        self.log.premise(place, f"NetFlow of Bridge {name} meters packets where they come in", "", Topic.OTHER, None,
                         (what,))
        self.log.premise(place, f"NetFlow of Bridge {name} has counters of 4 octets: the document has 8, so it speaks "
                         f"of records whose sums stay "
                         "below 4,294,967,296", "", Topic.COUNTERS, 110, (what,))
        self.log.note(place, f"NetFlow of Bridge {name} is version 5: IPv4 alone, and `once collect` refuses its "
                      f"messages", "", 611, (what,))


class OpenVSwitch:
    kind = "openvswitch"
    title = "Open vSwitch (3.1)"
    how_to_get = "ovsdb-client --format=json dump Open_vSwitch"
    certainty = "certain"

    def detect(self, text: str) -> int:
        if '"caption"' in text and '"Bridge table"' in text:
            return 99
        return 80 if text.lstrip().startswith("{") and '"headings"' in text and "_uuid" in text else 0

    def read(self, name: str, sources: list[Source], options: Mapping[str, str]) -> Device:
        return _Reading(name, sources, options).read()


READER = OpenVSwitch()
