"""Open vSwitch: its user space datapath, which needs no kernel module."""
from __future__ import annotations

import os
import shutil
import signal
import time
from pathlib import Path

from lab import buffers
from lab.programs import LabError, path_of, run

SCHEMA = "/usr/share/openvswitch/vswitch.ovsschema"
PORTS = ("p-core", "p-s1", "p-s2")
FLOOD = "priority=9,actions=flood"


class Switch:
    """A switch with one bridge, in a host's network namespace. `folder` has its database and sockets."""

    def __init__(self, folder: Path, host: str = "sw", bridge: str = "br0") -> None:
        self.folder, self.host, self.bridge = folder, host, bridge
        self.where = f"unix:{folder}/db.sock"

    def _run(self, *words: str) -> str:
        places = [f"{name}={self.folder}" for name in ("OVS_RUNDIR", "OVS_DBDIR", "OVS_LOGDIR", "OVS_SYSCONFDIR")]
        return run(["env", *places, *words], self.host).output

    def control(self, *words: str) -> str:
        """Returns what ovs-vsctl prints."""
        return self._run(path_of("ovs-vsctl"), "--timeout=60", f"--db={self.where}", *words)

    def openflow(self, command: str, *words: str) -> str:
        """Returns what ovs-ofctl prints of a command about the bridge."""
        return self._run(path_of("ovs-ofctl"), "--strict", command, f"unix:{self.folder}/{self.bridge}.mgmt", *words)

    def application(self, *words: str) -> str:
        """Returns what ovs-appctl prints."""
        return self._run(path_of("ovs-appctl"), "-t", f"{self.folder}/vs.ctl", *words)

    def start(self, ports: tuple[str, ...] = PORTS) -> None:
        """Starts the switch with a bridge that has these ports, and with buffers that hold a whole scenario's packets."""
        self.folder.mkdir(parents=True, exist_ok=True)
        self._run(path_of("ovsdb-tool"), "create", f"{self.folder}/conf.db", SCHEMA)
        self._run(path_of("ovsdb-server"), f"{self.folder}/conf.db", f"--remote=p{self.where}", f"--unixctl={self.folder}/db.ctl",
                  f"--pidfile={self.folder}/db.pid", "--detach", f"--log-file={self.folder}/db.log")
        self.control("--no-wait", "init")
        self._run(path_of("ovs-vswitchd"), self.where, f"--unixctl={self.folder}/vs.ctl", f"--pidfile={self.folder}/vs.pid",
                  "--detach", f"--log-file={self.folder}/vs.log")
        self.control("add-br", self.bridge, "--", "set", "bridge", self.bridge, "datapath_type=netdev")
        for port in ports:
            self.control("add-port", self.bridge, port)
        buffers.enlarge(self._process("vs"))

    def add_vlan(self, port: str, vlan: int) -> str:
        """Adds an interface of a VLAN on a port, as a kernel with 802.1Q would have it, and returns its name."""
        name = f"{port}.{vlan}"
        self.control("add-port", self.bridge, name, f"tag={vlan}", "--", "set", "interface", name, "type=internal")
        return name

    def _process(self, name: str) -> int:
        return int((self.folder / f"{name}.pid").read_text(encoding="ascii"))

    def stop(self) -> None:
        """Ends the switch, by the process numbers that it wrote down."""
        for name in ("vs", "db"):
            if (self.folder / f"{name}.pid").exists():
                _end(self._process(name))

    def remove(self) -> None:
        """Takes the bridge off its host, and ends the switch. What is left of it goes, whether it ran or not."""
        try:
            if (self.folder / "vs.pid").exists():
                self.control("--if-exists", "del-br", self.bridge)
        finally:
            self.stop()
            shutil.rmtree(self.folder, ignore_errors=True)

    def meter(self, settings: tuple[str, ...], collector: str) -> None:
        """Sets IPFIX of the bridge anew."""
        self.stop_metering()
        self.control("--", "set", "Bridge", self.bridge, "ipfix=@i", "--", "--id=@i", "create", "IPFIX",
                     f'targets="{collector}"', *settings)

    def stop_metering(self) -> None:
        """Takes IPFIX off the bridge; what its cache held is exported."""
        self.control("--", "--if-exists", "clear", "Bridge", self.bridge, "ipfix")

    def flood(self, is_on: bool) -> None:
        """Makes the bridge a hub that sends each packet out of all other ports, or a switch again."""
        if is_on:
            self.openflow("add-flow", FLOOD)
        else:
            self.openflow("del-flows", "priority=9")

    def database(self) -> str:
        """Returns the database, as once-import reads it."""
        return self._run(path_of("ovsdb-client"), "--format=json", "dump", self.where, "Open_vSwitch")

    def statistics(self) -> str:
        """Returns what the switch counts of its datapath and of what it exports."""
        return self.application("dpctl/show", "-s") + self.openflow("dump-ipfix-bridge")


def _end(process: int) -> None:
    try:
        os.kill(process, signal.SIGTERM)
        deadline = time.monotonic() + 30
        while time.monotonic() < deadline:
            os.kill(process, 0)
            time.sleep(0.05)
        os.kill(process, signal.SIGKILL)
    except ProcessLookupError:
        return
    raise LabError(f"process {process} of Open vSwitch had to be killed")
