#!/usr/bin/env python3
"""link_octets.py PROGRAM: has other programs read what `run` puts on links.

Runs the program over captures in some networks, and has each link's octets read by tshark (as datagrams of a capture that is made
for it), by ipfixDump (as an IPFIX file, RFC 5655) and by nfcapd (as datagrams over the loopback), of Debian's packages tshark,
libfixbuf-tools and nfdump; one that is missing is listed as not run. All must read the same records, nfcapd with no gap in the sequence
numbers, and `collect` the same sums as they. nfcapd knows no prefixes: of records by prefix it reads only the counts. On a link
that carries each packet of the capture once the sums must be those of its packets, and at the report the totals that `run` prints.

Prints `N links, M failed`; the exit status is 1 if one failed.
"""
import ipaddress
import itertools
import os
import re
import shutil
import socket
import struct
import sys
import tempfile
import time

from program import NOWHERE, PIPE, start, succeed
from verdict import not_run

HERE = os.path.dirname(os.path.abspath(__file__))
# The folders of the networks, and the files of their schedules.
NETWORKS = [
    ("../examples/mediator-by-network", "schedule.txt"),
    ("rows/run-with-an-aggregation", "schedule"),
    ("rows/run-with-ipv6-on-the-link", "schedule"),
    ("rows/run-with-65-records-of-one-holder", "schedule"),
]


def messages(octets):
    """The messages of a stream (RFC 7011, section 3.1: the length follows the version)."""
    while octets:
        length = struct.unpack(">H", octets[2:4])[0]
        yield octets[:length]
        octets = octets[length:]


def as_datagrams(octets):
    """A capture of raw IP in which each message is a datagram to port 4739."""
    capture = struct.pack("<IHHiIII", 0xA1B2C3D4, 2, 4, 0, 0, 262144, 101)
    here = bytes([127, 0, 0, 1])
    for number, message in enumerate(messages(octets)):
        packet = struct.pack(">BBHHHBBH4s4s", 0x45, 0, 28 + len(message), number, 0, 64, 17, 0, here, here)
        packet += struct.pack(">HHHH", 4739, 4739, 8 + len(message), 0) + message
        capture += struct.pack("<IIII", number, 0, len(packet), len(packet)) + packet
    return capture


def of_tshark(folder, octets):
    """The records, as tshark reads them: key, packets, octets."""
    with open(os.path.join(folder, "link.pcap"), "wb") as file:
        file.write(as_datagrams(octets))
    words = ["tshark", "-n", "-r", "link.pcap", "-d", "udp.port==4739,cflow", "-V", "-O", "cflow"]
    text = succeed(words, folder, stderr=NOWHERE).stdout.decode()
    if "Malformed" in text or "No template" in text:
        raise SystemExit("tshark doesn't read the octets:\n" + text[:2000])
    for flow in re.split(r"^ +Flow \d+$", text, flags=re.M)[1:]:
        found = dict(re.findall(r"^ +(\w+): (\S+)$", flow, flags=re.M))
        key = found.get("SrcAddr") or "%s/%s" % (found["SrcPrefix"], found["SrcMask"])
        yield spelled(key), int(found["Packets"]), int(found["Octets"])


def of_ipfix_dump(folder, octets):
    """The records, as ipfixDump reads them."""
    with open(os.path.join(folder, "link.ipfix"), "wb") as file:
        file.write(octets)
    words = ["ipfixDump", "--in", "link.ipfix", "--data"]
    text = succeed(words, folder, stderr=NOWHERE).stdout.decode()
    for flow in text.split("--- data record ")[1:]:
        found = dict(re.findall(r"(\w+) : (\S+)$", flow, flags=re.M))
        key = found.get("sourceIPv4Address") or found.get("sourceIPv6Address")
        if key is None:
            key = "%s/%s" % (found["sourceIPv4Prefix"], found["sourceIPv4PrefixLength"])
        yield spelled(key), int(found["packetDeltaCount"]), int(found["octetDeltaCount"])


def has_read_all(port):
    """Whether no datagram waits at this port of the loopback."""
    with open("/proc/net/udp") as file:
        sockets = [line.split() for line in file.readlines()[1:]]
    waiting = [fields[4].split(":")[1] for fields in sockets if fields[1] == "0100007F:%04X" % port]
    return waiting == ["00000000"]


def of_nfcapd(folder, octets):
    """The records, as nfcapd reads them and nfdump prints them; the key of a prefix is None."""
    flows = tempfile.mkdtemp(dir=folder)
    with socket.socket(socket.AF_INET, socket.SOCK_DGRAM) as free:
        free.bind(("127.0.0.1", 0))
        port = free.getsockname()[1]
    words = ["nfcapd", "-b", "127.0.0.1", "-p", str(port), "-w", flows, "-t", "86400"]
    with start(words, stdout=NOWHERE, stderr=PIPE, text=True) as collector:
        said = ""
        while "Startup" not in said:
            line = collector.stderr.readline()
            said += line or sys.exit("nfcapd doesn't start:\n" + said)
        with socket.socket(socket.AF_INET, socket.SOCK_DGRAM) as sender:
            for message in messages(octets):
                sender.sendto(message, ("127.0.0.1", port))
                while not has_read_all(port):
                    time.sleep(0.001)
        # (nfcapd goes on waiting after a signal that comes just before it waits for a datagram)
        while collector.poll() is None:
            collector.terminate()
            time.sleep(0.05)
        said += collector.stderr.read()
    if "Sequence Errors: 0, Bad Packets: 0" not in said:
        raise SystemExit("nfcapd finds a gap or a message that it can't read:\n" + said)
    words = ["nfdump", "-R", flows, "-q", "-N", "-6", "-o", "fmt:%sa %pkt %byt"]
    text = succeed(words, stderr=NOWHERE).stdout.decode()
    for flow in text.splitlines():
        if flow.strip():
            key, packets, counted = flow.split()
            yield None if key == "0.0.0.0" else spelled(key), int(packets), int(counted)


def agree(records, others):
    """Whether two programs read the same records; where one knows no key, the counts decide."""
    return len(records) == len(others) and all(
        record[1:] == other[1:] and (record[0] == other[0] or None in (record[0], other[0]))
        for record, other in zip(records, others))


def spelled(key):
    """The key as the program prints it."""
    if ":" not in key:
        return key
    return ":".join("%x" % int(group, 16) for group in ipaddress.IPv6Address(key).exploded.split(":"))


def has_keys(records):
    """Whether the program knows the keys of the records."""
    return all(key is not None for key, _, _ in records)


def lines_of(records):
    """The lines of their sums, by key."""
    sums = {}
    for key, packets, octets in records:
        before = sums.get(key, (0, 0))
        sums[key] = (before[0] + packets, before[1] + octets)
    return {"%s packets %d octets %d" % (key, packets, octets) for key, (packets, octets) in sums.items()}


def totals_in(text):
    return {line for line in text.splitlines() if " packets " in line}


def faults(program, folder, schedule, readers):
    """Yields what is wrong, link by link; None where nothing is."""
    words = ["network.json", "traffic.json", "capture.pcap", schedule, "--links", "link"]
    run = succeed([program, "run", *words], folder)
    links = sorted(name for name in os.listdir(folder) if re.fullmatch(r"link\d+", name))
    for link in links:
        with open(os.path.join(folder, link), "rb") as file:
            octets = file.read()
        read = {name: list(reader(folder, octets)) for name, reader in readers.items()}
        collect = succeed([program, "collect", "network.json", link], folder)
        collected = collect.stdout.decode()
        if "gaps 0\nskipped 0\n" not in collected:
            yield "%s: `collect` finds gaps or skips records" % link
        elif not all(agree(records, others) for records, others in itertools.combinations(read.values(), 2)):
            yield "%s: the records differ: %r" % (link, read)
        elif link == links[-1] and totals_in(collected) != totals_in(run.stdout.decode()):
            yield "%s: `collect` prints %r, and `run` %r" % (link, collected, run.stdout.decode())
        elif link == links[-1] and any(
                lines_of(records) != totals_in(collected) for records in read.values() if has_keys(records)):
            yield "%s: the sums are %r instead of %r" % (link, read, collected)
        else:
            yield None


def main(program):
    readers = {"tshark": of_tshark, "ipfixDump": of_ipfix_dump, "nfcapd": of_nfcapd}
    for name in [name for name in readers if not shutil.which(name)]:
        not_run("links read by %s" % name, "it is missing (Debian's packages tshark, libfixbuf-tools, nfdump)")
        del readers[name]
    found = []
    for network, schedule in NETWORKS:
        with tempfile.TemporaryDirectory() as folder:
            copy = os.path.join(folder, "network")
            shutil.copytree(os.path.join(HERE, network), copy)
            for fault in faults(os.path.abspath(program), copy, schedule, readers):
                found.append(fault)
                if fault:
                    print("%s: %s" % (network, fault))
    failed = len([fault for fault in found if fault])
    print("%d passed, %d failed" % (len(found) - failed, failed))
    return 1 if failed else 0


if __name__ == "__main__":
    if len(sys.argv) != 2:
        sys.exit(__doc__)
    sys.exit(main(sys.argv[1]))
