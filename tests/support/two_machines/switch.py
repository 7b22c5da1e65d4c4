"""The power switch of both machines, which the test is."""
from __future__ import annotations

import http.server

from support.proxy import InThread
from support.two_machines.guests import Guest


class Switch(InThread):
    """GET /off?two cuts the power of `two`, and says so once it is off; GET /on?two starts it. `asked` are the names
    whose power it was told to cut, and `cut` those whose power it has cut."""

    def __init__(self, at: tuple[str, int] = ("127.0.0.1", 0)) -> None:
        self.guests: dict[str, Guest] = {}
        self.asked: list[str] = []
        self.cut: list[str] = []
        self.works = True
        switch = self

        class Asked(http.server.BaseHTTPRequestHandler):
            def do_GET(self) -> None:
                what, _, name = self.path.partition("?")
                does = switch.starts if what == "/on" else switch.cuts
                body = f"{what[1:]}\n".encode() if does(name) else b"no\n"
                self.send_response(200)
                self.send_header("Content-Length", str(len(body)))
                self.end_headers()
                self.wfile.write(body)

            def log_message(self, *_: object) -> None:
                pass

        self.server = http.server.ThreadingHTTPServer(at, Asked)

    def cuts(self, name: str) -> bool:
        self.asked.append(name)
        if not self.works or name not in self.guests:
            return False
        self.guests[name].cut()
        self.cut.append(name)
        return True

    def starts(self, name: str) -> bool:
        if not self.works or name not in self.guests:
            return False
        self.guests[name].start()
        return True
