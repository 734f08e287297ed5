"""Small projects of Cisco routers, written into folders."""
from __future__ import annotations

from pathlib import Path

from once_tools.importing import Imported, Options, import_project
from once_tools.project import read_project

RECORD = """flow record R
 match ipv4 source address
 match ipv4 destination address
 match flow direction
 match interface input
 collect counter bytes long
 collect counter packets long
flow exporter E
 destination 192.0.2.10
 source Loopback0
 transport udp 4739
 export-protocol ipfix
flow monitor M
 record R
 exporter E
interface Loopback0
 ip address 198.51.100.1 255.255.255.255
"""
BOTH_WAYS = RECORD + """interface GigabitEthernet0/0
 ip flow monitor M input
 ip flow monitor M output
interface GigabitEthernet0/1
 ip flow monitor M input
 ip flow monitor M output
"""
REPORT = '[report]\ncollector = "billing"\nkey = "sourceIPv4Address"\n'
DEVICE = '[[devices]]\nname = "r"\nconfig = "r.cfg"\n'
COLLECTOR = '[[collectors]]\nname = "billing"\nlisten = ["192.0.2.10:4739"]\n'
TRAFFIC = '[[traffic]]\nname = "up"\nsource = "10.0.0.0/8"\nfrom = ["r:Gi0/0"]\nto = ["r:Gi0/1"]\n'


def made(folder: Path, project: str, options: Options = Options(), **files: str) -> Imported:
    """Returns the outcome of importing a project; a file's name is spelled with `_` for the dot."""
    for name, text in files.items():
        (folder / name.replace("_", ".")).write_text(text, encoding="utf-8")
    (folder / "project.toml").write_text(project, encoding="utf-8")
    return import_project(read_project(folder / "project.toml"), options)
