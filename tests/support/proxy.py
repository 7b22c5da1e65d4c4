"""A proxy on loopback that passes requests on, and may ask for another type of page than the client did."""
import http.client
import threading
from http.server import BaseHTTPRequestHandler, ThreadingHTTPServer


class Handler(BaseHTTPRequestHandler):
    timeout = 60

    def do_GET(self):
        headers = {name: value for name, value in self.headers.items() if name.lower() not in ("host", "connection")}
        asked = headers.get("Accept", "")
        if self.server.accept:
            headers["Accept"] = self.server.accept
        connection = http.client.HTTPConnection("127.0.0.1", self.server.behind, timeout=60)
        try:
            connection.request("GET", self.path, headers=headers)
            reply = connection.getresponse()
            body = reply.read()
        finally:
            connection.close()
        self.server.seen.append((self.path, reply.status, asked, reply.headers["Content-Type"]))
        self.send_response_only(reply.status)
        for name, value in reply.headers.items():
            self.send_header(name, value)
        self.end_headers()
        self.wfile.write(body)

    def log_message(self, *_):
        pass


class InThread:
    """Has a server of Python's library, `server`, serve in a thread as long as a block runs."""

    def __enter__(self):
        threading.Thread(target=self.server.serve_forever, kwargs={"poll_interval": 0.05}, daemon=True).start()
        return self

    def __exit__(self, *_):
        self.server.shutdown()
        self.server.server_close()


class Proxy(InThread):
    """Runs as long as the block does, and keeps of each request its path, its status, and the types asked for and
    got."""

    def __init__(self, behind, accept=None):
        self.server = ThreadingHTTPServer(("127.0.0.1", 0), Handler)
        self.server.daemon_threads = True
        self.server.behind, self.server.accept, self.server.seen = behind, accept, []
        self.port = self.server.server_port

    def pages(self):
        """The types that were asked for and got, of each page that came."""
        return [types for path, status, *types in self.server.seen if path.startswith("/simple/") and status == 200]
