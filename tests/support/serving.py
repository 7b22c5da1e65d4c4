"""What the tools share: a server that is started and always stopped, and requests that are sent to it."""
import hashlib
import http.client
import json
import os
import re
import select
import socket
import subprocess
import tempfile
import time
from contextlib import suppress

from support import ports

JSON_PAGE = "application/vnd.pypi.simple.v1+json"
ACCEPTED, ALREADY = b'{"answer":"accepted"}', b'{"answer":"already"}'


def sha256(data):
    return hashlib.sha256(data).hexdigest()


# the words of `init` for the user `office`, with the token `office`
FIRST_USER = "--user", "office", "--token-sha256", sha256(b"office")
# these, and `--volume` as long as indexes are made with a volume
OFFICE = [*FIRST_USER]
free_port = ports.free_port


def make_with_volume(is_asked):
    """Has each index that tests make from now on have a volume, or none."""
    OFFICE[:] = [*FIRST_USER, *["--volume"] * is_asked]


def listens(port, patience=60):
    """Whether somebody listens on this port of loopback before so many seconds are over."""
    until = time.monotonic() + patience
    while time.monotonic() < until:
        try:
            socket.create_connection(("127.0.0.1", port), timeout=1).close()
            return True
        except OSError:
            time.sleep(0.02)
    return False


def exchange(connection, method, path, body, headers):
    """The status, the headers and the body of the reply on this connection. `X_Index_Token` stands for
    `X-Index-Token`."""
    try:
        connection.request(method, path, body, {name.replace("_", "-"): value for name, value in headers.items()})
        reply = connection.getresponse()
        return reply.status, reply.headers, reply.read()
    finally:
        connection.close()


def reply_to(port, message, patience=60):
    """What comes back for a message before the connection ends. One whose request was not read whole may be reset."""
    reply = b""
    with suppress(ConnectionResetError, BrokenPipeError):
        with socket.create_connection(("127.0.0.1", port), timeout=patience) as peer:
            peer.sendall(message)
            while more := peer.recv(1 << 16):
                reply += more
    return reply


def parts_of(reply):
    """The status, the headers by name, and the body of a reply, or None where it is not one whole reply."""
    head, end, body = reply.partition(b"\r\n\r\n")
    first, *lines = head.split(b"\r\n")
    found = re.fullmatch(rb"HTTP/1\.1 (\d{3}) [A-Za-z ]+", first)
    if not found or not end or not all(b": " in line for line in lines):
        return None
    return int(found[1]), dict(line.split(b": ", 1) for line in lines), body


class Running:
    """A program that runs as long as the block does. It is then asked to end, and killed where it doesn't."""

    # in seconds
    ends_within = 5.0

    def __init__(self, words, **streams):
        self.words, self.streams = words, {"stdin": subprocess.DEVNULL, **streams}

    def __enter__(self):
        self.process = subprocess.Popen(self.words, **self.streams)
        return self

    def __exit__(self, *_):
        self.process.terminate()
        try:
            self.process.wait(timeout=self.ends_within)
        except subprocess.TimeoutExpired:
            self.kill()
            self.process.wait(timeout=60)
        if self.process.stdout:
            self.process.stdout.close()

    def kill(self):
        self.process.kill()


def make_index(program, path):
    """Makes a new index in this file. Its one user is `office`, with the token `office`."""
    words = [program, "init", "--db", path, *OFFICE]
    ended = subprocess.run(words, stdin=subprocess.DEVNULL, stdout=subprocess.PIPE, stderr=subprocess.STDOUT,
                           timeout=60)
    if (ended.returncode, ended.stdout) != (0, b"created\n"):
        raise SystemExit(f"{program} init ended with {ended.returncode} {ended.stdout!r}")
    return path


class Asking:
    """What has a call `ask`: an index, or what stands in front of one. Each request is made with a token, that of
    `office` if none is given, and returns the status, the headers and the body of the reply."""

    def request(self, token="office", **request):
        return self.ask("POST", "/requests", json.dumps(request), X_Index_Token=token)

    def claim(self, name, token="office"):
        return self.request(token, do="claim", name=name)

    def upload(self, project, file, body, requires="", token="office"):
        headers = {"X_Index_Token": token, "X_Index_SHA256": sha256(body)}
        headers.update({"X_Requires_Python": requires} if requires else {})
        return self.ask("PUT", f"/files/{project}/{file}", body, **headers)


def is_accepted(reply):
    return reply[0] in (200, 201) and reply[2] == ACCEPTED


def accepted(reply):
    """Returns the body of a reply, or ends the run if its request was not accepted."""
    if not is_accepted(reply):
        raise SystemExit(f"a request was answered {reply[0]} {reply[2][:200]!r}")
    return reply[2]


class Index(Running, Asking):
    """The built program, serving the index in a file, or a new one. It listens on `listen`, or on `host`, where it is
    asked. `under` are the words of a command that becomes it, and `more` are further options. What it says on standard
    error is kept."""

    def __init__(self, program, requests=1_000_000, path=None, patience=60, setting=None, port=0, at=None, keep=None,
                 host="127.0.0.1", listen=None, under=(), rounds=None, more=()):
        self.patience, self.program, self.host, self.listen = patience, program, host, listen or host
        self.said, self.folder = tempfile.TemporaryFile(), tempfile.TemporaryDirectory()
        self.path = path or f"{self.folder.name}/index.db"
        words = [*under, program, "serve", "--db", self.path]
        words += ["--listen", f"{self.listen}:{port}", "--requests", str(requests)]
        words += [] if rounds is None else ["--rounds", str(rounds)]
        words += [] if at is None else ["--at", str(at)]
        words += [] if keep is None else ["--keep-recent", str(keep)]
        words += more
        super().__init__(words, stdout=subprocess.PIPE, stderr=self.said, env={**os.environ, **(setting or {})})

    def __enter__(self):
        if not os.path.exists(self.path):
            make_index(self.program, self.path)
        super().__enter__()
        try:
            self.port = self.told_port()
        except BaseException:
            self.__exit__()
            raise
        return self

    def __exit__(self, *_):
        super().__exit__()
        self.said.close()
        self.folder.cleanup()

    def told_port(self):
        """The port in the line `listening on ADDRESS:PORT`, which has to come within so many seconds."""
        line, until = b"", time.monotonic() + self.patience
        while not line.endswith(b"\n"):
            ready, _, _ = select.select([self.process.stdout], [], [], max(0, until - time.monotonic()))
            read = os.read(self.process.stdout.fileno(), 4096) if ready else b""
            if not read:
                raise SystemExit(f"{self.program} serve does not listen: {line!r} {self.errors()!r}")
            line += read
        start = f"listening on {self.listen}:".encode()
        if not line.startswith(start):
            raise SystemExit(f"{self.program} serve printed {line!r}")
        return int(line[len(start):])

    def errors(self):
        self.said.seek(0)
        return self.said.read()

    def ask(self, method, path, body=None, **headers):
        return exchange(http.client.HTTPConnection(self.host, self.port, timeout=60), method, path, body, headers)
