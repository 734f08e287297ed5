#!/usr/bin/env python3
"""make_exporter_rows.py pmacctd|softflowd [FOLDER]: makes the rows of a stream that this exporter sends, in FOLDER.

The capture (250 packets of 64 flows of IPv4 and 6 packets of 2 flows of IPv6, each frame cut to 64 octets) is written
into the first row's folder, read by the exporter, and what it sends over the loopback is stored, message after message,
in each row. What must be printed is counted over the capture, never by the program: packets and the lengths that their IP
headers give, in the first row by the addresses of IPv4, protocol and class of service, in the second by those of IPv6 and the
version; the records of the other version's flows are unassigned. The gaps are counted from the messages' sequence numbers and
record counts (RFC 7011, section 3.1). If a message has a template with a counter of another length than 8 octets, 618 at that
message must be printed. The export times are those of the day.

- stream-of-pmacctd is what pmacctd (Debian's package pmacct, 1.7.7) sends with its plugin nfprobe, version 10, for capture.pcap
  beside it (pcap_savefile), with counters of 8 octets; `unassigned 2`.
- stream-of-pmacctd-by-addresses-of-ipv6 is the same stream under a report by the version and the addresses of IPv6;
  `unassigned 64`.
- stream-of-softflowd is what `softflowd -v 10 -r` (1.1.0) sends for the same capture, with counters of 4 octets: 618 at its
  first message.
- run-over-the-capture-of-pmacctd meters that capture, its packets of IPv4: the totals must be those of pmacctd's stream.

The capture is the same each time. Made again, the stream of pmacctd differs in its export times only, that of softflowd also in
its records' order and the clock of its start; what must be printed stays the same.
"""
import os
import random
import socket
import struct
import sys
import tempfile

from program import NOWHERE, start

HERE = os.path.dirname(os.path.abspath(__file__))
ROWS = {"pmacctd": {"stream-of-pmacctd": 4, "stream-of-pmacctd-by-addresses-of-ipv6": 6},
        "softflowd": {"stream-of-softflowd": 4}}
AXES = {4: ["sourceIPv4Address", "destinationIPv4Address", "protocolIdentifier", "ipClassOfService"],
        6: ["protocolIdentifier", "ipClassOfService", "ipVersion", "sourceIPv6Address", "destinationIPv6Address"]}
QUIET = 10


def network(version):
    keys = "".join('{"name":"%s","ieName":"%s","isFlowKey":[null]},\n' % (axis, axis) for axis in AXES[version])
    report = ",".join('{"ieName":"%s"}' % axis for axis in AXES[version])
    return """{"devices":[{"name":"m1","config":{"ietf-ipfix-psamp:ipfix":{
"observationPoint":[{"name":"op","observationDomainId":0,"ifName":["eth0"],"selectionProcess":["sp"]}],
"selectionProcess":[{"name":"sp","selector":[{"name":"a","selectAll":[null]}],"cache":"ca"}],
"cache":[{"name":"ca","timeoutCache":{"cacheLayout":{"cacheField":[
%s{"name":"o","ieId":1},{"name":"p","ieId":2}]}},"exportingProcess":["ex"]}],
"exportingProcess":[{"name":"ex","destination":[{"name":"d","udpExporter":{}}]}]}}},
{"name":"c1","config":{"ietf-ipfix-psamp:ipfix":{"collectingProcess":[{"name":"cp"}]}}}],
"links":[{"device":"m1","exportingProcess":"ex","destination":"d","toDevice":"c1","toProcess":"cp"}],
"report":{"device":"c1","collectingProcess":"cp","key":[%s]}}
""" % (keys, report)


def checksum(octets):
    total = sum(struct.unpack(">%dH" % (len(octets) // 2), octets))
    while total >> 16:
        total = (total & 0xFFFF) + (total >> 16)
    return 0xFFFF - total


def transport(protocol, ports, length):
    if protocol == 6:
        return struct.pack(">HHIIBBHHH", *ports, 1, 1, 0x50, 0x10, 1000, 0, 0)
    if protocol == 17:
        return struct.pack(">HHHH", *ports, length - 20, 0)
    return struct.pack(">BBHHH", 8, 0, 0, 1, 1)


def ipv4(flow, length, number):
    source, destination, protocol, ports, tos = flow
    head = struct.pack(">BBHHHBBHII", 0x45, tos, length, number, 0, 64, protocol, 0, source, destination)
    head = head[:10] + struct.pack(">H", checksum(head)) + head[12:]
    octets = head + transport(protocol, ports, length)
    return bytes([2, 0, 0, 0, 0, 2, 2, 0, 0, 0, 0, 1, 8, 0]) + octets + bytes(length - len(octets))


def ipv6(host, length):
    source, destination = (bytes.fromhex("20010db8") + bytes(11) + bytes([last]) for last in (host, 9))
    octets = struct.pack(">IHBB", 6 << 28, length, 17, 64) + source + destination + struct.pack(">HHHH", 1000, 53, length, 0)
    return bytes([2, 0, 0, 0, 0, 2, 2, 0, 0, 0, 0, 1, 0x86, 0xDD]) + octets + bytes(length - 8)


def frames():
    draw = random.Random(7011)
    flows = []
    for number in range(64):
        protocol = (6, 6, 17, 1)[number % 4]
        ports = (1024 + 7 * number, (80, 443, 53, 0)[number % 4]) if protocol != 1 else (0, 0)
        flows.append((0x0A000001 + number % 9, 0xC0000201 + number % 5, protocol, ports, (0, 0, 40, 184)[number // 4 % 4]))
    drawn = flows + [draw.choice(flows) for _ in range(250 - len(flows))]
    made = [ipv4(flow, draw.randint(40, 1500), number) for number, flow in enumerate(drawn)]
    made += [ipv6(1 + number % 2, 20 + number) for number in range(6)]
    draw.shuffle(made)
    return made


def write_capture(path):
    with open(path, "wb") as file:
        file.write(struct.pack("<IHHiIII", 0xA1B2C3D4, 2, 4, 0, 0, 64, 1))
        for number, frame in enumerate(frames()):
            frame += bytes(max(0, 60 - len(frame)))
            file.write(struct.pack("<IIII", 1_700_000_000 + number // 10, number % 10, min(64, len(frame)), len(frame)))
            file.write(frame[:64])


def count(path):
    """Packets and octets by key, and the number of flows, by the version: read octet by octet, by nobody's reader but ours."""
    with open(path, "rb") as file:
        octets = file.read()
    place, sums, flows = 24, {4: {}, 6: {}}, {4: set(), 6: set()}
    while place < len(octets):
        caught, = struct.unpack_from("<I", octets, place + 8)
        frame, place = octets[place + 16:place + 16 + caught], place + 16 + caught
        version = frame[14] >> 4
        if version == 4:
            key, ports = (frame[26:30], frame[30:34], frame[23], frame[15]), frame[34:38]
            total = int.from_bytes(frame[16:18], "big")
        else:
            key, ports = (frame[20], int.from_bytes(frame[14:16], "big") >> 4 & 255, 6, frame[22:38], frame[38:54]), frame[54:58]
            total = 40 + int.from_bytes(frame[18:20], "big")
        flows[version].add((key, ports))
        packets, so_far = sums[version].get(key, (0, 0))
        sums[version][key] = (packets + 1, so_far + total)
    return sums, {version: len(found) for version, found in flows.items()}


def written(value):
    """A value of a key: a number, an address of IPv4 or one of IPv6 in its eight groups."""
    if isinstance(value, int):
        return str(value)
    return socket.inet_ntoa(value) if len(value) == 4 else ":".join("%x" % group for group in struct.unpack(">8H", value))


def sets_of(message):
    place = 16
    while place < len(message):
        number, length = struct.unpack_from(">HH", message, place)
        yield number, message[place + 4:place + length]
        place += length


def templates_of(content, scopes):
    """The ids of a template set and the elements and lengths of their fields."""
    place = 0
    while len(content) - place >= 4:
        number, count = struct.unpack_from(">HH", content, place)
        place, fields = place + (6 if scopes else 4), []
        for _ in range(count):
            element, octets = struct.unpack_from(">HH", content, place)
            place += 8 if element >> 15 else 4
            fields.append((element, octets))
        yield number, fields


def narrow_place(messages):
    """The place of the first message with a counter that hasn't 8 octets."""
    place = 0
    for message in messages:
        for number, content in sets_of(message):
            for _, fields in templates_of(content, False) if number == 2 else []:
                if any(element in (1, 2) and octets != 8 for element, octets in fields):
                    return place
        place += len(message)
    return None


def gaps(messages):
    """How many messages have another sequence number than their domain's records before them; all fields are of fixed length."""
    lengths, wanted, found = {}, {}, 0
    for message in messages:
        sequence, domain = struct.unpack_from(">II", message, 8)
        found += wanted.get(domain, sequence) != sequence
        records = 0
        for number, content in sets_of(message):
            if number in (2, 3):
                for template, fields in templates_of(content, number == 3):
                    assert all(octets != 65535 for _, octets in fields)
                    lengths[domain, template] = sum(octets for _, octets in fields)
            else:
                records += len(content) // lengths[domain, number]
        wanted[domain] = (sequence + records) % 2**32
    return found


def totals(path, messages, version):
    sums, flows = count(path)
    lines = ["keys %d" % len(sums[version])]
    for key, counts in sorted(sums[version].items()):
        lines.append("%s packets %d octets %d" % (" ".join(map(written, key)), *counts))
    lines += ["unassigned %d" % flows[10 - version], "gaps %d" % gaps(messages), "skipped 0"]
    return "\n".join(lines) + "\n"


def words_of(exporter, capture, port, work):
    if exporter == "softflowd":
        return ["softflowd", "-d", "-v", "10", "-r", capture, "-n", "127.0.0.1:%d" % port]
    path = os.path.join(work, "conf")
    with open(path, "w") as file:
        file.write("daemonize: false\npcap_savefile: %s\nplugins: nfprobe\nnfprobe_receiver: 127.0.0.1:%d\n" % (capture, port))
        file.write("nfprobe_version: 10\nnfprobe_source_ip: 127.0.0.1\n")
    return ["pmacctd", "-f", path]


def sent(exporter, capture):
    """What the exporter sends of a capture: until it has ended, and for a second more."""
    messages = []
    with tempfile.TemporaryDirectory() as work, socket.socket(socket.AF_INET, socket.SOCK_DGRAM) as receiver:
        receiver.bind(("127.0.0.1", 0))
        receiver.settimeout(1)
        words = words_of(exporter, capture, receiver.getsockname()[1], work)
        run, quiet = start(words, stdout=NOWHERE, stderr=NOWHERE), 0
        while quiet < QUIET and (run.poll() is None or quiet < 1):
            try:
                messages.append(receiver.recv(65535))
                quiet = 0
            except socket.timeout:
                quiet += 1
        run.terminate()
        run.wait()
    return messages


def write_row(row, version, capture, messages):
    octets, narrow = b"".join(messages), narrow_place(messages)
    text = totals(capture, messages, version) if narrow is None else "refused 618 octet %d\n" % narrow
    contents = {"stream.ipfix": octets, "network.json": network(version).encode(), "stdout": text.encode(),
                "status": b"0\n" if narrow is None else b"2\n", "words": b"collect network.json stream.ipfix\n"}
    os.makedirs(row, exist_ok=True)
    for name, content in contents.items():
        with open(os.path.join(row, name), "wb") as file:
            file.write(content)
    print("%s: %d messages, %d octets" % (row, len(messages), len(octets)))


def main(exporter, folder=os.path.join(HERE, "rows")):
    first = os.path.join(folder, next(iter(ROWS[exporter])))
    os.makedirs(first, exist_ok=True)
    capture = os.path.join(first, "capture.pcap")
    write_capture(capture)
    messages = sent(exporter, capture)
    for name, version in ROWS[exporter].items():
        write_row(os.path.join(folder, name), version, capture, messages)


if __name__ == "__main__":
    if len(sys.argv) not in (2, 3) or sys.argv[1] not in ROWS:
        sys.exit(__doc__)
    main(*sys.argv[1:])
