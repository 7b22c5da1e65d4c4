"""A server that answers by a function, in the place of an index: what no index answers, resets, and no answer."""
from __future__ import annotations

import http.server
import json
import socket
import struct
import threading
from contextlib import contextmanager
from typing import Any, Callable, Dict, Iterator, List, Optional, Tuple

from support.model.pages import JSON_1, page_of_names

# a status, a type, a body and perhaps headers; None resets the connection
Answer = Optional[Tuple[Any, ...]]
Answers = Callable[..., Answer]
STANDING: Dict[str, Any] = {"case": None, "charge": 0, "owners": ["ann"], "quota": 1, "shown": "x", "state": "held"}
CASE: Dict[str, Any] = {"attempts": 0, "author": False, "candidate": "bob", "contact": "a", "first": None,
                        "kind": "reuse", "opened": 1, "pages": False, "profile": False, "sent": 0, "why": "b",
                        "work": "c"}
HTML = "text/html", b"<html><h1>the proxy's own page</h1>"


class Scripted(http.server.BaseHTTPRequestHandler):
    """Answers by the function `answer` of its server."""

    protocol_version = "HTTP/1.1"
    server: Server

    def reply(self) -> None:
        body = self.rfile.read(int(self.headers.get("Content-Length") or 0))
        self.server.asked.append((self.command, self.path, body, self.headers))
        answer = self.server.answer(self.command, self.path, body, self.headers)
        if answer is None:
            # a reset, with the request read whole
            self.connection.setsockopt(socket.SOL_SOCKET, socket.SO_LINGER, struct.pack("ii", 1, 0))
            self.connection.close()
            self.close_connection = True
            return
        status, kind, content, *more = answer
        self.send_response_only(status)
        for name, value in {"Content-Type": kind, "Content-Length": str(len(content)),
                            **(more[0] if more else {})}.items():
            self.send_header(name, value)
        self.end_headers()
        self.wfile.write(content)

    do_GET = do_POST = do_PUT = do_DELETE = do_CONNECT = reply

    def finish(self) -> None:
        try:
            super().finish()
        except (OSError, ValueError):
            pass

    def log_message(self, *_: object) -> None:
        pass


class Server(http.server.ThreadingHTTPServer):
    """`asked` has what came: the method, the path, the body and the headers."""

    daemon_threads = True
    answer: Answers
    asked: List[Tuple[str, str, bytes, Any]]
    url: str

    def handle_error(self, *_: object) -> None:
        pass

    def count(self, method: str) -> int:
        return sum(it[0] == method for it in self.asked)


@contextmanager
def scripted(answer: Answers) -> Iterator[Server]:
    """A server on loopback that answers by this function."""
    with Server(("127.0.0.1", 0), Scripted) as server:
        server.answer, server.asked = answer, []
        server.url = f"http://127.0.0.1:{server.server_port}"
        threading.Thread(target=server.serve_forever, kwargs={"poll_interval": 0.05}, daemon=True).start()
        try:
            yield server
        finally:
            server.shutdown()


def always(*answer: Any) -> Answers:
    return lambda *_: answer or None


def as_json(value: object, status: int = 200) -> Tuple[int, str, bytes]:
    return status, "application/json", json.dumps(value).encode()


def standing_of(path: str, **more: object) -> Tuple[int, str, bytes]:
    """The standing of the name that a path asks for."""
    return as_json({**STANDING, "name": path.rsplit("/", 1)[-1], **more})


def list_of(count: int) -> Tuple[int, str, bytes]:
    """A list of so many names."""
    names = [f"name-{at}" for at in range(count)]
    return 200, "application/json", page_of_names([(name, name) for name in names], JSON_1).encode()
