"""Forms as twine sends them, and index-legacy-upload to send them to."""
from __future__ import annotations

import base64
import re
import socket
import subprocess
import sys
import time
from contextlib import suppress
from http.server import HTTPServer
from typing import Optional, Tuple

from support.places import BIN
from support.serving import Running, sha256

BOUNDARY = "b0undary"
END = f"--{BOUNDARY}--\r\n".encode()
COMMAND = f"{BIN}/index-legacy-upload"
# the same code with shorter times, so that a test need not wait as long: for a form, an index and a silent client
HASTY = """import importlib.machinery, importlib.util, sys
loader = importlib.machinery.SourceFileLoader("hasty", sys.argv.pop(1))
service = importlib.util.module_from_spec(importlib.util.spec_from_loader("hasty", loader))
loader.exec_module(service)
service.FORM_SECONDS, service.INDEX_SECONDS, service.SILENT_SECONDS = map(int, sys.argv.pop(1).split())
service.Handler.timeout = service.SILENT_SECONDS
sys.exit(service.main())
"""


# the status of a reply, the reason beside it, and all of it as text; nothing if there is none
Reply = Optional[Tuple[int, str, str]]


def field(name: str, value: bytes, file: str | None = None) -> bytes:
    disposition = f'form-data; name="{name}"' + (f'; filename="{file}"' if file is not None else "")
    return f"--{BOUNDARY}\r\nContent-Disposition: {disposition}\r\n\r\n".encode() + value + b"\r\n"


def form(file: str, data: bytes, **fields: str | None) -> bytes:
    """A form as twine sends it. `action` is the field `:action`; one that is None is left out."""
    project = file.rpartition("-")[0] if file.endswith(".tar.gz") else file.partition("-")[0]
    fields = {"action": "file_upload", "protocol_version": "1", "name": project, "sha256_digest": sha256(data),
              **fields}
    parts = [field(f":{name}" if name == "action" else name, value.encode()) for name, value in fields.items()
             if value is not None]
    return b"".join([*parts, field("content", data, file), END])


def message(body: bytes, token: str = "office", method: str = "POST", **headers) -> bytes:
    """A whole request with this body, by its bytes. A header that is None is left out."""
    basic = base64.b64encode(f"__token__:{token}".encode()).decode()
    lines = {"Host": "x", "Content-Type": f"multipart/form-data; boundary={BOUNDARY}", "Content-Length": len(body),
             "Authorization": f"Basic {basic}", **{name.replace("_", "-"): value for name, value in headers.items()}}
    text = "".join(f"{name}: {value}\r\n" for name, value in lines.items() if value is not None)
    return f"{method} /legacy/ HTTP/1.1\r\n{text}\r\n".encode() + body


def sent(port: int, *pieces: bytes, pause: float = 0, patience: float = 90) -> tuple[Reply, float]:
    """The reply to these pieces, and the seconds until the connection ended."""
    begun, reply = time.monotonic(), b""
    with socket.create_connection(("127.0.0.1", port), timeout=patience) as peer, suppress(ConnectionError):
        for piece in pieces:
            peer.sendall(piece)
            time.sleep(pause)
        while more := peer.recv(1 << 16):
            reply += more
    found = re.match(rb"HTTP/1\.1 (\d{3}) ([^\r\n]*)\r\n", reply)
    return (int(found[1]), found[2].decode(), reply.decode()) if found else None, time.monotonic() - begun


def asked(serving: HTTPServer, data: bytes) -> tuple[str, str]:
    """The head and the body of the reply of a service in this process to a whole request."""
    with socket.create_connection(serving.server_address, timeout=60) as peer:
        peer.sendall(data)
        text = b""
        while more := peer.recv(1 << 16):
            text += more
    head, _, body = text.decode().partition("\r\n\r\n")
    return head, body


class Service(Running):
    """index-legacy-upload on a free port, in front of an index on this port."""

    def __init__(self, index_port: int, *more: str, seconds: str = "") -> None:
        words = [sys.executable, "-B", *(["-c", HASTY, COMMAND, seconds] if seconds else [COMMAND])]
        words += ["--listen", "127.0.0.1:0", "--index", f"127.0.0.1:{index_port}", *more]
        super().__init__(words, stdout=subprocess.PIPE, stderr=subprocess.DEVNULL)

    def __enter__(self) -> Service:
        super().__enter__()
        line = self.process.stdout.readline()
        found = re.fullmatch(rb"listening on 127\.0\.0\.1:(\d+)\n", line)
        if not found:
            self.__exit__()
            raise SystemExit(f"index-legacy-upload does not listen: {line!r}")
        self.port = int(found[1])
        return self

    def ask(self, body: bytes, token: str = "office", **headers) -> Reply:
        return sent(self.port, message(body, token, **headers))[0]

    def post(self, file: str, data: bytes, token: str = "office", **fields: str | None) -> Reply:
        return self.ask(form(file, data, **fields), token)

    def memory(self) -> tuple[int, int]:
        """The most memory that it has had in use, in bytes, and its threads now."""
        with open(f"/proc/{self.process.pid}/status") as kept:
            rows = dict(row.split(":", 1) for row in kept)
        return int(rows["VmHWM"].split()[0]) << 10, int(rows["Threads"])

    def waits_for_threads(self, count: int, patience: float = 60) -> None:
        """Returns once it has so many threads beside its first: as many clients are read."""
        until = time.monotonic() + patience
        while self.memory()[1] <= count:
            assert time.monotonic() < until, f"the service has {self.memory()[1]} threads, and not {count + 1}"
            time.sleep(0.02)
