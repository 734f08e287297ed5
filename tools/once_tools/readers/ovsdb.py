"""Tables of the database of Open vSwitch, as `ovsdb-client dump` and `ovs-vsctl list` print them in JSON."""
from __future__ import annotations

import json
from dataclasses import dataclass, field
from typing import Iterator, Sequence

from once_tools.model import Place, Unusable
from once_tools.source import Source

# A column by which a table without a caption is recognized.
TELLING = {"Bridge": "datapath_type", "Port": "bond_mode", "Interface": "ofport_request", "IPFIX": "obs_domain_id",
           "NetFlow": "add_id_to_interface", "Open_vSwitch": "ovs_version", "Flow_Sample_Collector_Set": "bridge",
           "Mirror": "select_all", "sFlow": "polling"}
# Columns by which the output of `ovs-vsctl --columns=.. list` is recognized.
PARTS = {"Bridge": {"name", "ports"}, "Port": {"name", "interfaces"}, "Interface": {"name", "type"},
         "IPFIX": {"targets", "obs_domain_id"}}
# Columns without which nothing certain can be said of a row, by table.
NEEDED = {"Bridge": ("name", "ports", "ipfix", "netflow", "mirrors"), "Port": ("name", "interfaces"),
          "Interface": ("name", "type"),
          "IPFIX": ("cache_active_timeout", "cache_max_flows", "obs_domain_id", "other_config", "sampling", "targets"),
          "NetFlow": ("active_timeout", "engine_id", "targets"), "Flow_Sample_Collector_Set": ("bridge", "id", "ipfix")}
TABLES = {*NEEDED, "Open_vSwitch", "Flow_Table", "QoS", "Queue", "Mirror", "sFlow", "Controller", "Manager", "Datapath",
          "CT_Zone", "CT_Timeout_Policy", "SSL", "AutoAttach"}
WHOLE = "give the output whole"


@dataclass
class Row:
    """A row: the values of its columns, with sets as lists and maps as dictionaries."""

    uuid: str
    columns: dict[str, object]
    place: Place

    def texts(self, column: str) -> list[str]:
        """Returns the texts of a set, or of a single value."""
        value = self.columns.get(column)
        values = value if isinstance(value, list) else [] if value is None else [value]
        return [one for one in values if isinstance(one, str)]

    def text(self, column: str) -> str:
        found = self.texts(column)
        return found[0] if found else ""

    def number(self, column: str) -> int | None:
        value = self.columns.get(column)
        value = value[0] if isinstance(value, list) and value else value
        return value if isinstance(value, int) and not isinstance(value, bool) else None

    def mapping(self, column: str) -> dict[str, str]:
        value = self.columns.get(column)
        return {str(key): str(one) for key, one in value.items()} if isinstance(value, dict) else {}


@dataclass
class Database:
    """The rows of each table, by their identifiers, and the places of tables that are not known."""

    tables: dict[str, dict[str, Row]] = field(default_factory=dict)
    unknown: list[tuple[Place, str]] = field(default_factory=list)

    def rows(self, table: str) -> list[Row]:
        return list(self.tables.get(table, {}).values())

    def row(self, table: str, uuid: str) -> Row | None:
        return self.tables.get(table, {}).get(uuid)


def read_database(sources: Sequence[Source]) -> Database:
    """Returns the tables of all texts. Raises Unusable if a text is not such a table."""
    found = Database()
    for source in sources:
        for document, line in _documents(source):
            _add(found, document, Place(source.name, line), source)
    if "Bridge" not in found.tables:
        raise Unusable(sources[0].place(0), "has no table Bridge",
                       "give what `ovsdb-client --format=json dump Open_vSwitch` prints")
    return found


def _documents(source: Source) -> Iterator[tuple[object, int]]:
    """Yields each value of JSON with the number of its first line."""
    text, position, decoder = source.text, 0, json.JSONDecoder()
    line, counted = 1, 0
    while True:
        while position < len(text) and text[position].isspace():
            position += 1
        if position == len(text):
            return
        line, counted = line + text.count("\n", counted, position), position
        try:
            document, position = decoder.raw_decode(text, position)
        except (ValueError, RecursionError) as error:
            at = line + (error.lineno - 1 if isinstance(error, json.JSONDecodeError) and "\n" in text[position:] else 0)
            raise Unusable(Place(source.name, min(at, len(source.lines())) or 1), "is not JSON of the database",
                           "use --format=json, and give the output whole") from None
        yield document, line


def _add(found: Database, document: object, place: Place, source: Source) -> None:
    headings = document.get("headings") if isinstance(document, dict) else None
    data = document.get("data") if isinstance(document, dict) else None
    if not isinstance(document, dict) or not isinstance(headings, list) or not isinstance(data, list):
        raise Unusable(place, "is not a table: it has no headings and data", "use --format=json, not --format=table")
    columns = [str(one) for one in headings]
    table = _table_of(str(document.get("caption", "")), columns)
    if table not in TABLES:
        found.unknown.append((place, table))
        return
    _check_columns(table, columns, place)
    rows = found.tables.setdefault(table, {})
    for values in data:
        if not isinstance(values, list) or len(values) != len(columns):
            raise Unusable(place, f"a row of table {table} has another number of values than there are headings",
                           WHOLE)
        row = Row("", {column: _value(value, f"{column} of table {table}", place)
                       for column, value in zip(columns, values)}, place)
        row.uuid = row.text("_uuid")
        _keep(rows, row, table)


def _check_columns(table: str, columns: list[str], place: Place) -> None:
    missing = [column for column in NEEDED.get(table, ()) if column not in columns]
    if missing:
        raise Unusable(place, f"table {table} has no column {missing[0]}",
                       f"print all columns, or at least {', '.join(('_uuid', *NEEDED[table]))}")
    if len(set(columns)) < len(columns):
        raise Unusable(place, f"table {table} has two columns of one name", WHOLE)


def _keep(rows: dict[str, Row], row: Row, table: str) -> None:
    """Adds a row. A row that two outputs have keeps the columns of both."""
    earlier = rows.get(row.uuid)
    if earlier is None or not row.uuid:
        rows[row.uuid or f"row {len(rows)}"] = row
        return
    for column in NEEDED.get(table, ()):
        if earlier.columns[column] != row.columns[column]:
            raise Unusable(row.place, f"row {row.uuid} of table {table} is here twice, and {column} differs",
                           "give one output of each table")
    earlier.columns.update(row.columns)


def _table_of(caption: str, columns: list[str]) -> str:
    """Returns the table's name: that of the caption, or by the columns; empty if it is not known."""
    if caption:
        return caption.removesuffix(" table")
    for table, column in TELLING.items():
        if column in columns:
            return table
    return next((table for table, parts in PARTS.items() if parts <= set(columns)), "")


def _value(value: object, what: str, place: Place) -> object:
    """Returns a value of OVSDB: of a set a list, of a map a dictionary, of an identifier its text. Raises Unusable."""
    if isinstance(value, (str, int, float)):
        return value
    if isinstance(value, list) and len(value) == 2:
        kind, inside = value
        if kind == "uuid" and isinstance(inside, str):
            return inside
        if kind == "set" and isinstance(inside, list):
            return [_value(one, what, place) for one in inside]
        if kind == "map" and isinstance(inside, list) and all(isinstance(one, list) and len(one) == 2 for one in inside):
            return {str(_value(key, what, place)): _value(one, what, place) for key, one in inside}
    raise Unusable(place, f"column {what} has a value that is not one of the database", WHOLE)
