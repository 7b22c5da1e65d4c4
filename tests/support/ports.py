"""Ports of loopback for servers that can't say which port they took, as nginx, or that come back on their port."""
from __future__ import annotations

import fcntl
import os
import random
import socket
import tempfile
from contextlib import suppress

# below those from which the kernel chooses for clients and for port 0
PORTS = range(20_000, 32_000)
# a process locks one byte of this file, which all users share, for each port that it may use
LOCKS = f"{tempfile.gettempdir()}/index-test-ports"
HELD: set[int] = set()
FILE: list[int] = []


def free_port() -> int:
    """A port that nobody listens on. No other process of these tests gets it before this one ends."""
    if not FILE:
        # once: a process loses its locks of a file as soon as it closes one descriptor of it
        FILE.append(opened())
    first = random.SystemRandom().randrange(len(PORTS))
    for port in (*PORTS[first:], *PORTS[:first]):
        if port not in HELD and is_locked(port) and not is_used(port):
            HELD.add(port)
            return port
    raise RuntimeError(f"no port from {PORTS.start} to {PORTS.stop} is free")


def opened() -> int:
    """The file of the locks. It is there only once each user may write to it; Linux lets nobody else create a file that
    is there in /tmp, so it is opened without that."""
    part, made = tempfile.mkstemp(dir=os.path.dirname(LOCKS))
    os.fchmod(part, 0o666)
    os.close(part)
    with suppress(FileExistsError):
        os.link(made, LOCKS)
    os.unlink(made)
    return os.open(LOCKS, os.O_RDWR | os.O_CLOEXEC)


def is_locked(port: int) -> bool:
    """Whether this process gets the lock of a port."""
    try:
        fcntl.lockf(FILE[0], fcntl.LOCK_EX | fcntl.LOCK_NB, 1, port)
    except OSError:
        return False
    return True


def is_used(port: int) -> bool:
    """Whether a program listens there that knows nothing of these locks."""
    try:
        socket.create_server(("127.0.0.1", port)).close()
    except OSError:
        return True
    return False
