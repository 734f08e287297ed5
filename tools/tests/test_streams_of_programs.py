"""`once-import streams` over captures of running exporters, compared with what a collector's socket received."""
from __future__ import annotations

import os
import socket
import subprocess
import time
from pathlib import Path

import pytest

from captures import ROWS
from once_tools.streams.writing import read_capture
from programs import need

QUIET, LONGEST = 2.0, 15.0


def received(listener: socket.socket, exporter: "subprocess.Popen[bytes]") -> list[bytes]:
    """Returns the datagrams that came until the exporter has ended and nothing follows."""
    found, last = [], time.monotonic()
    deadline = last + LONGEST
    listener.settimeout(0.2)
    while time.monotonic() < deadline and (exporter.poll() is None or time.monotonic() - last < 0.6):
        try:
            found.append(listener.recv(65535))
            last = time.monotonic()
        except TimeoutError:
            if found and time.monotonic() - last > QUIET:
                break
    return found


def start_capture(path: Path, port: int, transport: str = "udp") -> "subprocess.Popen[bytes]":
    """Starts dumpcap at the loopback, and returns when it captures."""
    dumpcap = need("dumpcap")
    process = subprocess.Popen([dumpcap, "-q", "-i", "lo", "-f", f"{transport} port {port}", "-w", str(path)],
                               stderr=subprocess.PIPE)
    deadline = time.monotonic() + 10
    while time.monotonic() < deadline and process.poll() is None:
        if path.exists() and path.stat().st_size:
            time.sleep(0.3)
            return process
        time.sleep(0.05)
    process.kill()
    message = f"dumpcap cannot capture at the loopback: {process.communicate()[1].decode(errors='replace').strip()}"
    if os.environ.get("CI") == "true":
        pytest.fail(message)
    pytest.skip(message)


def exporter_of(name: str, capture: Path, port: int, folder: Path) -> "subprocess.Popen[bytes]":
    if name == "softflowd":
        return subprocess.Popen([need("softflowd"), "-d", "-v", "10", "-r", str(capture), "-n", f"127.0.0.1:{port}"],
                                stderr=subprocess.DEVNULL, stdout=subprocess.DEVNULL)
    settings = folder / "pmacctd.conf"
    settings.write_text(f"pcap_savefile: {capture}\nplugins: nfprobe\nnfprobe_version: 10\n"
                        f"nfprobe_receiver: 127.0.0.1:{port}\ndaemonize: false\n"
                        "aggregate: src_host, dst_host, src_port, dst_port, proto, tos\n")
    return subprocess.Popen([need("pmacctd"), "-f", str(settings)], stderr=subprocess.DEVNULL, stdout=subprocess.DEVNULL)


@pytest.mark.parametrize("name", ["softflowd", "pmacctd"])
def test_stream_is_what_the_socket_received(tmp_path: Path, name: str) -> None:
    with socket.socket(socket.AF_INET, socket.SOCK_DGRAM) as listener:
        listener.bind(("127.0.0.1", 0))
        port = listener.getsockname()[1]
        path = tmp_path / "export.pcapng"
        capture = start_capture(path, port)
        try:
            exporter = exporter_of(name, ROWS / f"stream-of-{name}" / "capture.pcap", port, tmp_path)
            try:
                messages = received(listener, exporter)
            finally:
                exporter.kill()
                exporter.wait()
        finally:
            time.sleep(0.3)
            capture.terminate()
            capture.wait(timeout=10)
    assert messages
    streams, _ = read_capture(path)
    assert [bytes(one.part.octets) for one in streams] == [b"".join(messages)]


def test_a_tcp_stream_of_the_kernel(tmp_path: Path) -> None:
    octets = (ROWS / "stream-of-pmacctd" / "stream.ipfix").read_bytes() * 40
    path = tmp_path / "export.pcapng"
    with socket.create_server(("127.0.0.1", 0)) as server:
        port = server.getsockname()[1]
        capture = start_capture(path, port, "tcp")
        try:
            with socket.create_connection(("127.0.0.1", port)) as exporter, server.accept()[0] as collector:
                got = 0
                for at in range(0, len(octets), 30_000):
                    exporter.sendall(octets[at:at + 30_000])
                    while got < min(at + 30_000, len(octets)):
                        got += len(collector.recv(1 << 16))
            time.sleep(0.5)
        finally:
            capture.terminate()
            capture.wait(timeout=10)
    streams, findings = read_capture(path)
    assert [bytes(one.part.octets) for one in streams] == [octets]
    assert streams[0].ends.transport == "tcp" and not any("octets (" in one.says for one in findings)
