"""The filter compiler of libpcap, as an oracle for expressions of pcap-filter(7)."""
from __future__ import annotations

import ctypes
import ctypes.util
import ipaddress
import os
import struct
from dataclasses import dataclass

import pytest

RAW_IP = 12  # DLT_RAW: packets begin with the header of IP


@dataclass(frozen=True)
class Packet:
    """The values that filters look at."""

    source: str
    destination: str
    protocol: int
    source_port: int = 0
    destination_port: int = 0

    def octets(self) -> bytes:
        """Returns the packet with a header of 8 octets after that of IP."""
        source, destination = ipaddress.ip_address(self.source), ipaddress.ip_address(self.destination)
        rest = struct.pack(">HHHH", self.source_port, self.destination_port, 8, 0)
        if source.version == 4:
            return struct.pack(">BBHHHBBH", 0x45, 0, 28, 0, 0, 64, self.protocol,
                               0) + source.packed + destination.packed + rest
        return struct.pack(">IHBB", 0x60000000, 8, self.protocol, 64) + source.packed + destination.packed + rest


class _Program(ctypes.Structure):
    _fields_ = [("length", ctypes.c_uint), ("instructions", ctypes.c_void_p)]


class _Header(ctypes.Structure):
    _fields_ = [("seconds", ctypes.c_long), ("microseconds", ctypes.c_long), ("captured", ctypes.c_uint32),
                ("length", ctypes.c_uint32)]


def library() -> ctypes.CDLL:
    """Returns libpcap; skips the test if it is missing, and fails it in CI."""
    try:
        found = ctypes.CDLL(ctypes.util.find_library("pcap") or "libpcap.so.0.8")
    except OSError:
        if os.environ.get("CI") == "true":
            pytest.fail("libpcap is missing")
        pytest.skip("libpcap is missing")
    found.pcap_open_dead.restype = ctypes.c_void_p
    found.pcap_geterr.restype = ctypes.c_char_p
    found.pcap_geterr.argtypes = [ctypes.c_void_p]
    found.pcap_compile.argtypes = [ctypes.c_void_p, ctypes.POINTER(_Program), ctypes.c_char_p, ctypes.c_int,
                                   ctypes.c_uint32]
    found.pcap_offline_filter.argtypes = [ctypes.POINTER(_Program), ctypes.POINTER(_Header), ctypes.c_char_p]
    return found


class Filter:
    """A compiled expression; ValueError if libpcap refuses it."""

    def __init__(self, expression: str) -> None:
        self.library = library()
        handle = self.library.pcap_open_dead(RAW_IP, 65535)
        self.program = _Program()
        if self.library.pcap_compile(handle, ctypes.byref(self.program), expression.encode(), 0, 0) != 0:
            raise ValueError(self.library.pcap_geterr(handle).decode())

    def passes(self, packet: Packet) -> bool:
        octets = packet.octets()
        header = _Header(0, 0, len(octets), len(octets))
        return bool(self.library.pcap_offline_filter(ctypes.byref(self.program), ctypes.byref(header), octets))
