"""Indexes that answer as none should, for what stands in front of one."""
from __future__ import annotations

import json
import re
import socket
import threading
import time
from collections.abc import Callable
from contextlib import suppress

# longer than anybody waits for an index in a test
LONG = 120
LENGTH = re.compile(rb"\r\nContent-Length: (\d+)\r\n")
# what is done on a connection, with the bytes that came first
Answer = Callable[[socket.socket, bytes], object]


class BrokenIndex:
    """Listens on a free port, and answers each connection by a function."""

    def __init__(self, answer: Answer) -> None:
        self.answer, self.listening = answer, socket.create_server(("127.0.0.1", 0))
        self.port = self.listening.getsockname()[1]
        self.thread = threading.Thread(target=self.serve, daemon=True)

    def serve(self) -> None:
        while True:
            try:
                peer, _ = self.listening.accept()
            except OSError:
                return
            with peer, suppress(OSError):
                peer.settimeout(10)
                self.answer(peer, peer.recv(1 << 16))

    def __enter__(self) -> BrokenIndex:
        self.thread.start()
        return self

    def __exit__(self, *_) -> None:
        self.listening.shutdown(socket.SHUT_RDWR)
        self.listening.close()
        self.thread.join()


def answering(status: str, body: str) -> Answer:
    reply = f"HTTP/1.1 {status}\r\nContent-Length: {len(body)}\r\n\r\n{body}".encode()
    return lambda peer, _: peer.sendall(reply)


def silent(peer: socket.socket, _: bytes) -> None:
    """Says nothing for so long, or until the other side has ended the connection."""
    peer.settimeout(LONG)
    while peer.recv(1 << 16):
        pass


def trickle(peer: socket.socket, _: bytes) -> None:
    until = time.monotonic() + LONG
    while time.monotonic() < until:
        peer.sendall(b"H")
        time.sleep(0.05)


def taking(peer: socket.socket, begun: bytes) -> None:
    """Takes all of a request, however late it comes, and accepts it after a while, as a busy index does."""
    peer.settimeout(LONG)
    head, _, body = begun.partition(b"\r\n\r\n")
    found = LENGTH.search(head + b"\r\n")
    left = int(found[1]) - len(body) if found else 0
    while left > 0 and (more := peer.recv(1 << 16)):
        left -= len(more)
    time.sleep(0.5)
    answering("201 Created", json.dumps({"answer": "accepted"}))(peer, begun)


# by what it does
BROKEN = {
    "says nothing": silent, "trickles": trickle, "closes": lambda peer, _: None,
    "sends garbage": lambda peer, _: peer.sendall(b"\0" * 100_000), "sends a page": answering("200 OK", "<html>"),
    "accepts by a refusal": answering("200 OK", json.dumps({"answer": "refused", "name": "BadToken"})),
    "refuses by an acceptance": answering("403 Forbidden", json.dumps({"answer": "accepted"})),
    "sends a list": answering("200 OK", "[]"), "sends a number": answering("200 OK", json.dumps({"answer": 1})),
    "sends elsewhere": answering("301 Moved", json.dumps({"answer": "refused", "name": "Moved"})),
    "names a line break": answering("403 No", json.dumps({"answer": "refused", "name": "x\r\nX-Bad: y"})),
}
