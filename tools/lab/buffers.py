"""Larger receive buffers for the packet sockets of a program that runs and has no setting for them, such as Open vSwitch."""
from __future__ import annotations

import ctypes
import os
import socket
from pathlib import Path

PIDFD_GETFD = 438  # the system call's number, the same on all machines of Linux (pidfd_getfd(2), since 5.6)
SO_RCVBUFFORCE = 33  # which the module socket does not name
# The kernel makes it twice as much (socket(7)). A scenario's packets take less.
OCTETS = 8 << 20


def packet_sockets(process: int) -> list[socket.socket]:
    """Returns duplicates of the packet sockets of a process; none where the kernel hands over none."""
    found: list[socket.socket] = []
    try:
        handle = os.pidfd_open(process)
    except OSError:
        return found
    try:
        for link in Path(f"/proc/{process}/fd").iterdir():
            if _points_to_socket(link):
                descriptor = ctypes.CDLL(None, use_errno=True).syscall(PIDFD_GETFD, handle, int(link.name), 0)
                if descriptor >= 0:
                    found.append(socket.socket(fileno=descriptor))
    finally:
        os.close(handle)
    others = [one for one in found if one.family != socket.AF_PACKET]
    for one in others:
        one.close()
    return [one for one in found if one not in others]


def _points_to_socket(link: Path) -> bool:
    try:
        return os.readlink(link).startswith("socket:")
    except OSError:
        return False


def enlarge(process: int, octets: int = OCTETS) -> int:
    """Gives each packet socket of a process a receive buffer of this size, and returns how many there are."""
    sockets = packet_sockets(process)
    for one in sockets:
        with one:
            one.setsockopt(socket.SOL_SOCKET, SO_RCVBUFFORCE, octets)
    return len(sockets)
