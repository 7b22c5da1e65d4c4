"""A change whose answer nobody gets: its client is gone, or the index is killed."""
from __future__ import annotations

import os
import signal
import socket
from concurrent.futures import ThreadPoolExecutor

from support.server.front import Front
from support.server.kept import Kept
from support.server.waits import wait_for

ESTABLISHED = "01"


def has_client(port: int) -> bool:
    """Whether somebody is connected to this port of loopback, by the kernel's table."""
    end = f"0100007F:{port:04X}"
    with open("/proc/net/tcp") as table:
        return any(words[1] == end and words[3] == ESTABLISHED for words in map(str.split, table))


def has_request(port: int) -> bool:
    """Whether a request waits on a connection of this port of loopback, by the kernel's table."""
    end = f"0100007F:{port:04X}"
    with open("/proc/net/tcp") as table:
        found = [words[4] for words in map(str.split, table) if words[1] == end and words[3] == ESTABLISHED]
    return any(int(it.partition(":")[2], 16) for it in found)


def request_and_be_killed(front: Front, index: Kept, **asked: object) -> int:
    """The status by which nginx answers this request of the office. The index got it, and is killed before it reads."""
    stopped = index.index.process.pid
    os.kill(stopped, signal.SIGSTOP)
    with ThreadPoolExecutor(1) as clients:
        reply = clients.submit(front.request, **asked)
        try:
            assert wait_for(lambda: has_request(index.port))
        finally:
            os.kill(stopped, signal.SIGKILL)
        return reply.result()[0]


def ask_and_go(front: Front, index: Kept, method: str, path: str, body: bytes = b"") -> None:
    """Asks nginx for this with the token of the office, and is gone once nginx has passed it on. The index, which was
    stopped meanwhile, answers afterwards."""
    head = f"{method} {path} HTTP/1.1\r\nHost: packages.example\r\nX-Index-Token: office\r\nContent-Length: {len(body)}"
    os.kill(index.index.process.pid, signal.SIGSTOP)
    try:
        with socket.create_connection(("127.0.0.1", front.port), timeout=60) as plain:
            with front.trust.wrap_socket(plain, server_hostname="127.0.0.1") as client:
                client.sendall(f"{head}\r\n\r\n".encode() + body)
                assert wait_for(lambda: has_client(index.port))
    finally:
        os.kill(index.index.process.pid, signal.SIGCONT)
    assert wait_for(lambda: any(it["path"] == path for it in front.changes()))
