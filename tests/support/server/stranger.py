"""What stands for PyPI beside the index."""
from __future__ import annotations

import http.client
import http.server

from support.proxy import InThread


class Handler(http.server.BaseHTTPRequestHandler):
    server: Server

    def do_GET(self) -> None:
        self.server.asked.append(self.headers)
        body = b"<a href=\"/99.0\">a stranger's 99.0</a>"
        self.send_response_only(200)
        self.send_header("Content-Type", "text/html")
        self.send_header("Content-Length", str(len(body)))
        self.end_headers()
        self.wfile.write(body)

    def log_message(self, *_: object) -> None:
        pass


class Server(http.server.ThreadingHTTPServer):
    """It keeps the headers of each request."""

    def __init__(self) -> None:
        super().__init__(("127.0.0.1", 0), Handler)
        self.asked: list[http.client.HTTPMessage] = []


class Stranger(InThread):
    """It has a page for each path, with a file of the highest version."""

    def __init__(self) -> None:
        self.server = Server()
        self.port, self.asked = self.server.server_port, self.server.asked
