"""switch_in_namespace.py FOLDER: runs Open vSwitch in the network namespace that this runs in, and records what it exports.

A bridge has two ports; for each setting of IPFIX the same packets are sent through it. FOLDER gets `sent.pcap`, and for each
setting the messages as `NAME.ipfix` and the database as `NAME.json`.
"""
from __future__ import annotations

import shutil
import socket
import struct
import subprocess
import sys
import time
from pathlib import Path

from captures import ipv4, pcap, udp

SETTINGS = {"default": [], "ingress": ["other_config:enable-output-sampling=true"],
            "egress": ["other_config:enable-input-sampling=true"],
            "neither": ["other_config:enable-input-sampling=true", "other_config:enable-output-sampling=true"],
            "false": ["other_config:enable-input-sampling=false", "other_config:enable-output-sampling=false"]}
PORT = 4739
SCHEMA = "/usr/share/openvswitch/vswitch.ovsschema"
NEAR, FAR = b"\x02\0\0\0\0\x0a", b"\x02\0\0\0\0\x0b"


def program(name: str) -> str:
    return shutil.which(name) or f"/usr/sbin/{name}"


def run(*words: str) -> None:
    subprocess.run(words, check=True, timeout=30, stdout=subprocess.DEVNULL)


def checksummed(packet: bytes) -> bytes:
    """Returns a packet of IPv4 with its header's checksum."""
    total = sum(struct.unpack(">10H", packet[:20]))
    total = (total >> 16) + (total & 0xFFFF)
    return packet[:10] + struct.pack(">H", ~(total + (total >> 16)) & 0xFFFF) + packet[12:]


def frames() -> list[bytes]:
    """Returns frames of four sources, with different lengths."""
    return [FAR + NEAR + b"\x08\x00" + checksummed(ipv4(udp(bytes(100 + number)), source=f"10.0.0.{1 + number % 4}",
                                                        to="10.77.0.2", number=number)) for number in range(20)]


def raw(interface: str) -> socket.socket:
    found = socket.socket(socket.AF_PACKET, socket.SOCK_RAW)
    found.bind((interface, 0))
    return found


class Switch:
    """A running switch with one bridge."""

    def __init__(self, folder: Path) -> None:
        self.where = f"unix:{folder}/db.sock"
        run(program("ovsdb-tool"), "create", f"{folder}/conf.db", SCHEMA)
        self.running = [subprocess.Popen([program("ovsdb-server"), f"{folder}/conf.db", f"--remote=p{self.where}",
                                          f"--unixctl={folder}/db.ctl"], stderr=subprocess.DEVNULL)]
        for _ in range(200):
            if (folder / "db.sock").exists():
                break
            time.sleep(0.05)
        self.running.append(subprocess.Popen([program("ovs-vswitchd"), self.where, f"--unixctl={folder}/vs.ctl"],
                                             stdout=subprocess.DEVNULL, stderr=subprocess.DEVNULL))

    def control(self, *words: str) -> None:
        run(program("ovs-vsctl"), "--timeout=10", f"--db={self.where}", *words)

    def meter(self, settings: list[str]) -> None:
        """Sets IPFIX of the bridge anew."""
        self.control("--", "--if-exists", "clear", "Bridge", "br0", "ipfix")
        self.control("--", "set", "Bridge", "br0", "ipfix=@i", "--", "--id=@i", "create", "IPFIX",
                     f'targets="127.0.0.1:{PORT}"', "sampling=1", *settings)

    def database(self) -> str:
        return subprocess.run([program("ovsdb-client"), "--format=json", "dump", self.where, "Open_vSwitch"], check=True,
                              timeout=30, capture_output=True, text=True).stdout

    def stop(self) -> None:
        for process in reversed(self.running):
            process.terminate()
            try:
                process.wait(timeout=20)
            except subprocess.TimeoutExpired:
                process.kill()


def set_up(switch: Switch) -> None:
    switch.control("--no-wait", "init")
    run("ip", "link", "set", "lo", "up")
    switch.control("add-br", "br0", "--", "set", "Bridge", "br0", "datapath_type=netdev")
    for name in ("a", "b"):
        run("ip", "link", "add", "name", f"host-{name}", "type", "veth", "peer", "name", f"port-{name}")
        for end in ("host", "port"):
            Path(f"/proc/sys/net/ipv6/conf/{end}-{name}/disable_ipv6").write_text("1")
            run("ip", "link", "set", "dev", f"{end}-{name}", "up")
        switch.control("add-port", "br0", f"port-{name}")


def received(listener: socket.socket) -> bytes:
    """Returns the messages that come until none does for a second."""
    found = b""
    try:
        while True:
            found += listener.recv(65535)
    except TimeoutError:
        return found


def record(folder: Path, switch: Switch) -> None:
    set_up(switch)
    (folder / "sent.pcap").write_bytes(pcap(frames()))
    with raw("host-a") as near, raw("host-b") as far, socket.socket(socket.AF_INET, socket.SOCK_DGRAM) as listener:
        listener.bind(("127.0.0.1", PORT))
        listener.settimeout(1)
        near.send(b"\xff" * 6 + NEAR + frames()[0][12:])
        far.send(NEAR + FAR + frames()[0][12:])
        time.sleep(0.5)
        for name, settings in SETTINGS.items():
            switch.meter(settings)
            time.sleep(0.3)
            for frame in frames():
                near.send(frame)
                time.sleep(0.005)
            (folder / f"{name}.ipfix").write_bytes(received(listener))
            (folder / f"{name}.json").write_text(switch.database())


def main(folder: Path) -> None:
    switch = Switch(folder)
    try:
        record(folder, switch)
    finally:
        switch.stop()


if __name__ == "__main__":
    main(Path(sys.argv[1]))
