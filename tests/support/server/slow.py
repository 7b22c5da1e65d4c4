"""An index that takes a moment for each page, and many who ask for one at once."""
from __future__ import annotations

import http.client
import http.server
import threading
import time

from support.proxy import InThread
from support.server.front import Front
from support.serving import JSON_PAGE

# so many ask within these seconds, which are well below those that the index takes
AT_ONCE, TOGETHER, TAKES = 10, 0.01, 0.03


class SlowIndex(InThread):
    """Stands for an index that is busy for a moment, and counts how often it is asked for a page."""

    def __init__(self) -> None:
        self.asked, counting, slow = 0, threading.Lock(), self

        class Handler(http.server.BaseHTTPRequestHandler):
            def do_GET(self) -> None:
                with counting:
                    slow.asked += 1
                time.sleep(TAKES)
                self.send_response_only(200)
                self.send_header("Content-Type", JSON_PAGE)
                self.send_header("Content-Length", "2")
                self.end_headers()
                self.wfile.write(b"{}")

            def log_message(self, *_: object) -> None:
                pass

        self.server = http.server.ThreadingHTTPServer(("127.0.0.1", 0), Handler)
        self.port = self.server.server_port


def of_herd(front: Front, slow: SlowIndex, path: str) -> tuple[float, int] | None:
    """The longest that one of ten waited for this page, and how often the index was asked for it; nothing if a busy
    machine did not send them together, as the last could find the page there then."""
    herd = [http.client.HTTPSConnection("127.0.0.1", front.port, timeout=60, context=front.trust)
            for _ in range(AT_ONCE)]
    for it in herd:
        it.connect()
    before, begun = slow.asked, time.monotonic()
    for it in herd:
        it.request("GET", path, headers={"Accept": JSON_PAGE})
    sent = time.monotonic() - begun
    replies = [it.getresponse() for it in herd]
    bodies = [it.read() for it in replies]
    longest = time.monotonic() - begun
    for it in herd:
        it.close()
    assert [it.status for it in replies] == [200] * AT_ONCE and set(bodies) == {b"{}"}, bodies
    return (longest, slow.asked - before) if sent < TOGETHER else None
