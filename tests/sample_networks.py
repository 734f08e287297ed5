"""Networks, declarations and captures that tests and benchmarks share."""
import struct

KEY = ["sourceIPv4Address", "destinationIPv4Address", "protocolIdentifier", "sourceTransportPort", "destinationTransportPort"]
# How many filters the meter of `metered` has in the benchmarks and the test of progress.
FILTERS = 125


def network(most=None):
    """Returns a meter with a timeout cache, of at most `most` flows, and a collector that reports by the same key."""
    fields = [{"name": name, "ieName": name, "isFlowKey": [None]} for name in KEY]
    fields += [{"name": name, "ieName": name} for name in ["octetDeltaCount", "packetDeltaCount"]]
    bound = {} if most is None else {"maxFlows": most}
    meter = {
        "observationPoint": [{"name": "uplink", "observationDomainId": 0, "ifName": ["eth0"], "selectionProcess": ["all"]}],
        "selectionProcess": [{"name": "all", "selector": [{"name": "all", "selectAll": [None]}], "cache": "flows"}],
        "cache": [{"name": "flows", "timeoutCache": {**bound, "cacheLayout": {"cacheField": fields}}, "exportingProcess": ["out"]}],
        "exportingProcess": [{"name": "out", "destination": [{"name": "collector", "tcpExporter": {}}]}],
    }
    configurations = [("meter", meter), ("collector", {"collectingProcess": [{"name": "billing"}]})]
    link = {"device": "meter", "exportingProcess": "out", "destination": "collector", "toDevice": "collector", "toProcess": "billing"}
    report = {"device": "collector", "collectingProcess": "billing", "key": [{"ieName": name} for name in KEY]}
    return {"devices": [device(*it) for it in configurations], "links": [link], "report": report}


TRAFFIC = {"classes": [{"name": "all", "paths": [[{"device": "meter", "interface": "eth0", "direction": "ingress"}]]}]}


def device(name, configuration):
    return {"name": name, "config": {"ietf-ipfix-psamp:ipfix": configuration}}


def metered(processes):
    """Returns a meter of this many filters, each for another port, and a process that selects all, which alone is collected."""
    fields = [{"name": "s", "ieName": "sourceIPv4Address", "isFlowKey": [None]}, {"name": "o", "ieId": 1}, {"name": "p", "ieId": 2}]
    layout = {"cacheLayout": {"cacheField": fields}}
    by_port = lambda k: {"name": "port", "filterMatch": {"ieName": "destinationTransportPort", "value": str(2 * k + 1)}}
    names = ["all"] + ["port %d" % k for k in range(processes)]
    selections = [{"name": "all", "selector": [{"name": "a", "selectAll": [None]}], "cache": "counted"}]
    selections += [{"name": "port %d" % k, "selector": [by_port(k)], "cache": "lost"} for k in range(processes)]
    caches = [{"name": "counted", "timeoutCache": layout, "exportingProcess": ["out"]}, {"name": "lost", "timeoutCache": layout}]
    meter = {
        "observationPoint": [{"name": "op", "observationDomainId": 0, "ifName": ["eth0"], "selectionProcess": names}],
        "selectionProcess": selections,
        "cache": caches,
        "exportingProcess": [{"name": "out", "destination": [{"name": "d1", "tcpExporter": {}}]}],
    }
    devices = [device("d0", meter), device("d1", {"collectingProcess": [{"name": "in"}]})]
    link = {"device": "d0", "exportingProcess": "out", "destination": "d1", "toDevice": "d1", "toProcess": "in"}
    report = {"device": "d1", "collectingProcess": "in", "key": [{"ieName": "sourceIPv4Address"}]}
    return {"devices": devices, "links": [link], "report": report}


def paths(count):
    """Returns a declaration of this many paths, at most 16 in a class."""
    path = [{"device": "d0", "interface": "eth0", "direction": "ingress"}]
    sizes = [16] * (count // 16) + ([count % 16] if count % 16 else [])
    return {"classes": [{"name": "class %d" % k, "paths": [path] * size} for k, size in enumerate(sizes)]}


def frame(flow):
    """Returns a frame of 60 octets, Ethernet, IPv4 and UDP, of the flow with this number."""
    source = 0x0A000000 + flow
    destination = 0xC0000200 + flow % 256
    payload = 60 - 14 - 20 - 8
    ports = struct.pack(">HHHH", 1024 + flow % 50000, 53, 8 + payload, 0)
    header = struct.pack(">BBHHHBBHII", 0x45, 0, 28 + payload, flow % 65536, 0, 64, 17, 0, source, destination)
    total = sum(struct.unpack(">10H", header))
    total = (total & 0xFFFF) + (total >> 16)
    total = (total & 0xFFFF) + (total >> 16)
    header = header[:10] + struct.pack(">H", 0xFFFF - total) + header[12:]
    ethernet = bytes([2, 0, 0, 0, 0, 2, 2, 0, 0, 0, 0, 1]) + struct.pack(">H", 0x0800)
    return ethernet + header + ports + bytes(payload)


def write_capture(path, frames, flows):
    """Writes a capture of frames of each flow after another; times grow by a microsecond a frame."""
    made = [frame(flow) for flow in range(flows)]
    with open(path, "wb") as out:
        out.write(struct.pack("<IHHiIII", 0xA1B2C3D4, 2, 4, 0, 0, 262144, 1))
        start = 1_700_000_000
        for n in range(frames):
            octets = made[n % flows]
            out.write(struct.pack("<IIII", start + n // 1_000_000, n % 1_000_000, len(octets), len(octets)))
            out.write(octets)
