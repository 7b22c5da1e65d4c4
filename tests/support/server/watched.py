"""What watches the index: runs of index-health and index-metrics, an index that fails, and one that goes."""
from __future__ import annotations

import http.server
import re
import socket
import subprocess
import sys
import threading

from support.places import BIN, SERVER
from support.proxy import InThread
from support.running import run_command

HEALTH = [sys.executable, f"{BIN}/index-health"]
# nothing is made or removed there
NOWHERE = "/nonexistent/full"
METRICS = [sys.executable, f"{BIN}/index-metrics"]


class Handler(http.server.BaseHTTPRequestHandler):
    def do_GET(self) -> None:
        body = b'{"answer":"fault","name":"Store"}'
        self.send_response_only(500)
        self.send_header("Content-Length", str(len(body)))
        self.end_headers()
        self.wfile.write(body)


class Failed(InThread):
    """A port of loopback that answers as an index whose database was shut by a fault."""

    def __init__(self) -> None:
        self.server = http.server.HTTPServer(("127.0.0.1", 0), Handler)
        self.url = f"http://127.0.0.1:{self.server.server_port}"


class Closes(threading.Thread):
    """A machine that goes as soon as it has a request. `seen` are the first words of those."""

    def __init__(self) -> None:
        super().__init__(daemon=True)
        self.listener, self.seen = socket.create_server(("127.0.0.1", 0)), []
        self.port = self.listener.getsockname()[1]

    def run(self) -> None:
        while True:
            try:
                peer, _ = self.listener.accept()
            except OSError:
                return
            with peer:
                self.seen.append(peer.recv(1 << 16).split(b" ")[0])

    def __enter__(self) -> Closes:
        self.start()
        return self

    def __exit__(self, *_: object) -> None:
        # one that waits in accept is not woken by close alone
        self.listener.shutdown(socket.SHUT_RDWR)
        self.join()
        self.listener.close()


def unit(name: str) -> str:
    """The text of a unit of server/systemd."""
    with open(f"{SERVER}/systemd/{name}") as kept:
        return kept.read()


def look_at_health(path: str, *words: str, under: tuple = (), full: str = NOWHERE) -> subprocess.CompletedProcess:
    """A run of index-health, and what index-health.service does after it: some systemctl of this PATH, and the file
    `full` as long as there is little room."""
    after = re.search(r"^ExecStopPost=\+/bin/sh -c '(.*?)'$", unit("index-health.service"), re.M | re.S)
    ended = run_command([*under, *HEALTH, *words])
    if after:
        script = after[1].replace("$$", "$").replace("\\\n", " ")
        run_command(["sh", "-c", script.replace("/run/index-full", full)], PATH=path, EXIT_STATUS=str(ended.returncode))
    return ended


def measured(words: list, **setting: str) -> dict[str, float]:
    """What index-metrics writes, by name; nothing if it fails."""
    ended = run_command([*METRICS, *words], **setting)
    lines = re.findall(r'^([a-z_]+)\{port="\d+"((?:,[a-z]+="[^"]+")*)\} (\S+)$', ended.stdout, re.M)
    return {name + of: float(value) for name, of, value in lines} if ended.returncode == 0 else {}
