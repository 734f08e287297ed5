"""Writes documents of devices and networks that are large or hostile, one to a file of the folder that is named."""
import json
import os
import sys

FIELDS = [
    {"name": "s", "ieName": "sourceIPv4Address", "isFlowKey": [None]},
    {"name": "o", "ieId": 1},
    {"name": "p", "ieId": 2},
]


def short(number):
    return "%x" % number


def long(number):
    return "n" * 251 + "%04x" % number


def device(name):
    """All lists full, and each entry refers to all that it may refer to."""
    names = [name(number) for number in range(256)]
    return {
        "observationPoint": [
            {"name": own, "observationDomainId": 0, "ifName": names, "selectionProcess": names} for own in names
        ],
        "selectionProcess": [
            {"name": own, "selector": [{"name": own, "selectAll": [None]}], "cache": names[-1]} for own in names
        ],
        "cache": [
            {"name": own, "timeoutCache": {"cacheLayout": {"cacheField": FIELDS}}, "exportingProcess": names}
            for own in names
        ],
        "exportingProcess": [
            {"name": own, "destination": [{"name": own, "tcpExporter": {}}]} for own in names
        ],
        "collectingProcess": [{"name": own, "exportingProcess": names} for own in names],
    }


def ipfix(members):
    return json.dumps({"ietf-ipfix-psamp:ipfix": members}, separators=(",", ":"))


def nested():
    """Members of another module, which are unread, as deep as a document may be, many times."""
    deep = '{"a":' * 120 + "0" + "}" * 120
    others = ",".join('"other:%d":%s' % (number, deep) for number in range(20_000))
    return '{"ietf-ipfix-psamp:ipfix":{},%s}' % others


def long_text():
    """A text of 16 MiB where a name belongs."""
    return ipfix({"collectingProcess": [{"name": "n" * (16 << 20)}]})


def long_list():
    """A list of a million entries where 256 are the most."""
    return ipfix({"collectingProcess": [{}] * 1_000_000})


def network(devices, links):
    """A network whose report is that of the last device's last collecting process."""
    last = devices[-1]
    report = {
        "device": last["name"],
        "collectingProcess": last["config"]["ietf-ipfix-psamp:ipfix"]["collectingProcess"][-1]["name"],
        "key": [{"ieName": "sourceIPv4Address"}],
    }
    return json.dumps({"devices": devices, "links": links, "report": report}, separators=(",", ":"))


def many_destinations():
    """64 devices of 256 exporting processes of 16 destinations, and the last 1,024 of them linked."""
    names = [short(number) for number in range(256)]
    few = names[:16]
    exporting = [{"name": own, "destination": [{"name": to, "tcpExporter": {}} for to in few]} for own in names]
    device = {"ietf-ipfix-psamp:ipfix": {"exportingProcess": exporting}}
    last = {"ietf-ipfix-psamp:ipfix": {"exportingProcess": exporting, "collectingProcess": [{"name": "c"}]}}
    devices = [{"name": own, "config": last if own == "3f" else device} for own in names[:64]]
    links = [
        {"device": "3f", "exportingProcess": own, "destination": to, "toDevice": "3f", "toProcess": "c"}
        for own in names[-64:]
        for to in few
    ]
    return network(devices, links)


def many_feeders():
    """A device of 256 exporting processes of 256 destinations, which 256 collecting processes all name."""
    names = [short(number) for number in range(256)]
    members = {
        "exportingProcess": [
            {"name": own, "destination": [{"name": to, "tcpExporter": {}} for to in names]} for own in names
        ],
        "collectingProcess": [{"name": own, "exportingProcess": names} for own in names],
    }
    return network([{"name": "a", "config": {"ietf-ipfix-psamp:ipfix": members}}], [])


def main():
    folder = sys.argv[1]
    for name, text in [
        ("short-names", ipfix(device(short))),
        ("long-names", ipfix(device(long))),
        ("unread-members", nested()),
        ("long-text", long_text()),
        ("long-list", long_list()),
        ("network-of-destinations", many_destinations()),
        ("network-of-feeders", many_feeders()),
    ]:
        with open(os.path.join(folder, name + ".json"), "w") as file:
            file.write(text)


main()
