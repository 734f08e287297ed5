"""Mutated databases of Open vSwitch: the reader does not pass over a change of what bears on metering in silence."""
from __future__ import annotations

import copy
import json
import random
import time
from typing import Any, Callable

from expected import SAMPLES
from once_tools.readers import READERS
from once_tools.source import Source
from test_mutations import heard

COUNT = 300
Table = dict[str, Any]
NOTHING = ["set", []]
# Columns that say which packets are metered, and where and how; others, as statistics, may change unheard.
BEARING = {
    "Bridge": {"_uuid", "name", "ports", "ipfix", "netflow", "mirrors"}, "Port": {"_uuid", "name", "interfaces"},
    "Interface": {"_uuid", "name", "type"},
    "IPFIX": {"_uuid", "targets", "sampling", "other_config", "cache_active_timeout", "cache_max_flows", "obs_domain_id"},
    "NetFlow": {"_uuid", "targets", "active_timeout", "engine_id"}, "Open_vSwitch": {"bridges", "ovs_version"},
    "Flow_Sample_Collector_Set": {"bridge", "id", "ipfix"}, "Mirror": {"_uuid", "name"}}
# Port names serve the report of bonds alone, and the identifier of a row is needed where another row names it.
UNUSED = {("Port", "name"), ("Open_vSwitch", "bridges")}


def table(caption: str, **columns: object) -> Table:
    return {"caption": f"{caption} table", "headings": list(columns), "data": [list(columns.values())]}


def database() -> list[Table]:
    """Returns the sample with NetFlow, a mirror, flow-based sampling and a version."""
    found: list[Table] = [json.loads(line) for line in
                          (SAMPLES / "openvswitch/hv-1.ovsdb.json").read_text().splitlines() if line]
    by_name = {one["caption"].removesuffix(" table"): one for one in found}
    bridges, sets, switch = by_name["Bridge"], by_name["Flow_Sample_Collector_Set"], by_name["Open_vSwitch"]
    for column, uuid in (("netflow", "n"), ("mirrors", "m")):
        bridges["data"][0][bridges["headings"].index(column)] = ["uuid", uuid]
    ipfix = by_name["IPFIX"]["data"][0][0]
    values = {"_uuid": ["uuid", "s"], "bridge": bridges["data"][1][0], "id": 9, "ipfix": ipfix, "external_ids": ["map", []]}
    sets["data"].append([values[column] for column in sets["headings"]])
    switch["data"][0][switch["headings"].index("ovs_version")] = "3.1.0"
    return [*found, table("NetFlow", _uuid=["uuid", "n"], active_timeout=30, add_id_to_interface=False, engine_id=4,
                          engine_type=0, external_ids=["map", []], targets="192.0.2.10:2055"),
            table("Mirror", _uuid=["uuid", "m"], name="span", select_all=True, output_port=NOTHING)]


def name_of(one: Table) -> str:
    return str(one["caption"]).removesuffix(" table")


def spoiled(text: str, chance: random.Random) -> str:
    """Returns a text with one character changed."""
    at = chance.randrange(len(text) + 1)
    return text[:at] + chance.choice("xq7") + text[at + 1:]


def changed(value: Any, chance: random.Random) -> Any:
    """Returns a value with one change somewhere inside."""
    if isinstance(value, bool):
        return not value
    if isinstance(value, (int, float)):
        return value + chance.choice([-1, 1, 7])
    if isinstance(value, str):
        return spoiled(value, chance)
    kind, inside = value
    if not inside or chance.random() < 0.2:
        return [spoiled(kind, chance), inside]
    if kind == "uuid":
        return [kind, spoiled(inside, chance)]
    inside, at = list(inside), chance.randrange(len(inside))
    if chance.random() < 0.3:
        del inside[at]
    elif kind == "map":
        side = chance.randrange(2)
        inside[at] = [changed(one, chance) if place == side else one for place, one in enumerate(inside[at])]
    else:
        inside[at] = changed(inside[at], chance)
    return [kind, inside]


def change_value(tables: list[Table], chance: random.Random) -> tuple[str, bool]:
    one = chance.choice([one for one in tables if one["data"]])
    row, column = chance.choice(one["data"]), chance.choice(one["headings"])
    at, name = one["headings"].index(column), name_of(one)
    before, row[at] = row[at], changed(row[at], chance)
    return f"{name}.{column}: {before} to {row[at]}", (
        before != row[at] and column in BEARING[name] and (name, column) not in UNUSED
        and not (name == "Interface" and column == "type" and {before, row[at]} <= {"", "internal", "system"}))


def drop_row(tables: list[Table], chance: random.Random) -> tuple[str, bool]:
    one = chance.choice([one for one in tables if one["data"]])
    del one["data"][chance.randrange(len(one["data"]))]
    return f"a row of {name_of(one)}", name_of(one) != "Open_vSwitch"


def double_row(tables: list[Table], chance: random.Random) -> tuple[str, bool]:
    one = chance.choice([one for one in tables if one["data"]])
    one["data"].append(copy.deepcopy(chance.choice(one["data"])))
    return f"a row of {name_of(one)} twice", False


def drop_column(tables: list[Table], chance: random.Random) -> tuple[str, bool]:
    one = chance.choice(tables)
    at = chance.randrange(len(one["headings"]))
    column = one["headings"].pop(at)
    for row in one["data"]:
        del row[at]
    # Without bridges of the switch the table of bridges still has all of them; the sample's mirror is then nameless.
    return f"column {name_of(one)}.{column}", column in BEARING[name_of(one)] - {"_uuid"} and column != "bridges"


def misspell_column(tables: list[Table], chance: random.Random) -> tuple[str, bool]:
    one = chance.choice(tables)
    at = chance.randrange(len(one["headings"]))
    column, new = one["headings"][at], spoiled(one["headings"][at], chance)
    one["headings"][at] = new
    return f"column {name_of(one)}.{column} as {new}", new != column and (
        column in BEARING[name_of(one)] - {"_uuid"} and column != "bridges")


def misspell_table(tables: list[Table], chance: random.Random) -> tuple[str, bool]:
    one = chance.choice(tables)
    before = name_of(one)
    one["caption"] = spoiled(before, chance) + " table"
    return f"table {before} as {one['caption']}", True


def drop_table(tables: list[Table], chance: random.Random) -> tuple[str, bool]:
    name = name_of(tables.pop(chance.randrange(len(tables))))
    return f"table {name}", True


CHANGES: list[Callable[[list[Table], random.Random], tuple[str, bool]]] = [
    change_value, change_value, change_value, drop_row, double_row, drop_column, misspell_column, misspell_table, drop_table]


def text_of(tables: list[Table]) -> str:
    return "\n".join(json.dumps(one) for one in tables) + "\n"


def heard_of(text: str) -> tuple[str, frozenset[str]]:
    return heard("openvswitch", [Source("hv-1.ovsdb.json", text)])


def test_no_change_of_a_database_is_passed_over_in_silence() -> None:
    chance, usual, silent = random.Random("openvswitch"), heard_of(text_of(database())), []
    assert usual[0] != "unusable"
    for _ in range(COUNT):
        tables = database()
        what, bears = chance.choice(CHANGES)(tables, chance)
        if bears and heard_of(text_of(tables)) == usual:
            silent.append(what)
    assert not silent


def test_a_database_that_was_cut_is_refused() -> None:
    text, chance = text_of(database()), random.Random(1)
    usual = heard_of(text)
    for _ in range(60):
        found = heard_of(text[:chance.randrange(len(text) - 1)])
        assert found[0] == "unusable" or found != usual


def test_rows_that_are_here_twice_must_agree() -> None:
    tables = database()
    ipfix = next(one for one in tables if name_of(one) == "IPFIX")
    again = copy.deepcopy(ipfix)
    assert heard_of(text_of([*tables, again])) == heard_of(text_of(tables))
    again["data"][0][again["headings"].index("sampling")] = 100
    assert any("sampling differs" in says for says in heard_of(text_of([*tables, again]))[1])


def test_a_dump_of_ten_megabytes_is_read_in_seconds() -> None:
    tables = database()
    by_name = {name_of(one): one for one in tables}
    bridge, port, interface = (by_name[name] for name in ("Bridge", "Port", "Interface"))
    ports = bridge["data"][0][bridge["headings"].index("ports")][1]
    for number in range(15_000):
        for one, own in ((port, f"p{number}"), (interface, f"i{number}")):
            row = list(one["data"][0])
            row[0], row[one["headings"].index("name")] = ["uuid", own], f"vnet-{number}"
            if one is port:
                row[one["headings"].index("interfaces")] = ["uuid", f"i{number}"]
            one["data"].append(row)
        ports.append(["uuid", f"p{number}"])
    text = text_of(tables)
    assert len(text) > 10_000_000
    start = time.monotonic()
    device = READERS["openvswitch"].read("hv-1", [Source("hv-1.ovsdb.json", text)], {})
    assert "vnet-14999" in [one.name for one in device.interfaces] and time.monotonic() - start < 30
