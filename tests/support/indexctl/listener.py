"""A listener that answers connections by given texts, and an `Index` of indexctl for its address."""
from __future__ import annotations

import dataclasses
import socket
import struct
import threading
from typing import Any, List, Sequence

from indexctl.transport import Index

from support.indexctl.rows import SETTING

# the head of a reply with a body of two bytes, but for the empty line
PLAIN = b"HTTP/1.1 200 OK\r\nServer: nginx\r\nContent-Length: 2\r\n"


def index_of(url: str, **setting: Any) -> Index:
    return Index(dataclasses.replace(SETTING, url=url, **setting))


class Listener:
    """Answers what comes on each connection by the next of these texts, in these pieces, and keeps what came. A
    connection without texts is reset when something came: before that the client may not even see it open."""

    def __init__(self, *connections: Sequence[Sequence[bytes]]) -> None:
        self.peer, self.connections = socket.create_server(("127.0.0.1", 0)), connections
        self.came: List[bytes] = []
        self.thread = threading.Thread(target=self.answer, daemon=True)
        self.url = f"http://127.0.0.1:{self.peer.getsockname()[1]}"

    def answer(self) -> None:
        for replies in self.connections:
            with self.peer.accept()[0] as one:
                if not replies:
                    one.recv(4096)
                    one.setsockopt(socket.SOL_SOCKET, socket.SO_LINGER, struct.pack("ii", 1, 0))
                for pieces in replies:
                    self.came.append(one.recv(4096))
                    for piece in pieces:
                        one.sendall(piece)

    def __enter__(self) -> Listener:
        self.thread.start()
        return self

    def __exit__(self, *_: object) -> None:
        self.thread.join(20)
        self.peer.close()
