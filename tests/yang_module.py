#!/usr/bin/env python3
"""yang_module.py: has yanglint (Debian's package `libyang-tools`) check docs/schemas/once-audit.yang.

The module itself must be right; the documents of examples must be data of it, the configuration of each of their devices must be data of
RFC 6728's module with its augmentation, and some documents with a fault must not. What the module imports, `ietf-ipfix-psamp` of
RFC 6728, is looked for in the folders of the variable YANG_MODPATH, with colons between them; if it is not set, tests/yang has a
transcription of the nodes that the profile reads. Without yanglint, a line `not run:` says so. Prints last `N passed, M failed`.
"""
import copy
import glob
import json
import os
import shutil
import sys
import tempfile

from schema_cases import reading
from program import WITH_OUTPUT, run
from verdict import not_run, report_each

TOP = os.path.dirname(os.path.dirname(os.path.abspath(__file__)))
MODULE = os.path.join(TOP, "docs", "schemas", "once-audit.yang")
IMPORTED = "ietf-ipfix-psamp"
TRANSCRIBED = os.path.join(TOP, "tests", "yang")
AGGREGATED = "~1/collectingProcess/0/once-audit:aggregation/0"
FEATURES = ["-F", IMPORTED + ":*"]
# Faults that a YANG module can show: names that are defined twice, and names that are not defined.
WRONG = [
    ("network", "/devices/2/name", '"router"'),
    ("network", "/links/-", "@/links/0"),
    ("network", "/links/0/toDevice", '"nobody"'),
    ("network", "/report/device", '"nobody"'),
    ("network", "/report/key/0/prefixLength", ""),
    ("network", "/report/key/0/prefixLength", "33"),
    ("network", "/report/key/0/ieName", '"sourceIPv4Prefix"'),
    ("network", AGGREGATED + "/key/0/prefixLength", "0"),
    ("network", AGGREGATED + "/match/0/values", '"10.0.0.0/8"'),
    ("network", AGGREGATED + "/exportingProcess", "7"),
    ("traffic", "/classes/1/name", '"customers"'),
    ("traffic", "/classes/0/paths/0/0/device", '"nobody"'),
    ("traffic", "/classes/0/paths/0/0/direction", '"both"'),
    ("traffic", "/classes/0/region/sourceIPv4Address", '"10.0.0.0/33"'),
    ("traffic", "/classes/0/exempt", '"yes"'),
]


def lint(*words):
    folders = []
    for folder in filter(None, os.environ.get("YANG_MODPATH", TRANSCRIBED).split(":")):
        folders += ["-p", folder]
    ran = run(["yanglint", *folders, *FEATURES, MODULE, *words], stderr=WITH_OUTPUT, text=True)
    return ran.returncode, ran.stdout


def data_of(network, traffic):
    """The documents as data of the module: each path of a class is an object there, and configurations are looked at apart."""
    network, traffic = copy.deepcopy(network), copy.deepcopy(traffic)
    for device in network["devices"]:
        device["config"] = {}
    for entry in traffic["classes"]:
        entry["paths"] = [{"crossings": path} for path in entry["paths"]]
        if entry.get("exempt") is True:
            entry["exempt"] = [None]
    return {"once-audit:network": network, "once-audit:traffic": traffic}


def refused(folder, network, traffic):
    """What yanglint says against the documents, or nothing; of a device's configuration it looks at form and types (`get`),
    since aggregations aren't configured (`config false`) and `once` needs no destination's address."""
    configurations = [("get", device["config"]) for device in network["devices"]]
    for kind, data in [("data", data_of(network, traffic)), *configurations]:
        path = os.path.join(folder, "data.json")
        with open(path, "w", encoding="utf-8") as file:
            json.dump(data, file)
        status, said = lint("-t", kind, path)
        if status or said:
            return said.strip()[:300] or "status %d" % status
    return None


def faults():
    """What is wrong, or nothing, of each thing that is looked at."""
    status, said = lint()
    yield "once-audit.yang: " + said.strip() if status or said else None
    with tempfile.TemporaryDirectory() as folder:
        for example in sorted(glob.glob(TOP + "/examples/*/network.json")):
            documents = []
            for kind in ("network", "traffic"):
                with open(os.path.join(os.path.dirname(example), kind + ".json"), encoding="utf-8") as file:
                    documents.append(json.load(file))
            said = refused(folder, *documents)
            yield said and "%s: %s" % (os.path.relpath(example, TOP), said)
        for kind, place, text in WRONG:
            documents = {name: reading.document(name) for name in ("network", "traffic")}
            documents[kind] = reading.changed(kind, place, text)
            said = refused(folder, documents["network"], documents["traffic"])
            yield None if said else "taken: %s %s %s" % (kind, place, text)


def main():
    if not shutil.which("yanglint"):
        not_run("docs/schemas/once-audit.yang", "there is no yanglint (Debian's package libyang-tools)")
        print("0 passed, 0 failed")
        return 0
    return report_each(faults())


if __name__ == "__main__":
    sys.exit(main())
