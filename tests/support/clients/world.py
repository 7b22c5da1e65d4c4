"""What the clients find: an index with packages, behind nginx with TLS and a certificate of its own."""
from __future__ import annotations

import http.client
import os
import re
import threading
from collections.abc import Iterator
from contextlib import ExitStack, contextmanager
from http.server import BaseHTTPRequestHandler, ThreadingHTTPServer

from support.clients.forms import Service
from support.clients.page import read_recipes
from support.clients.sources import make_isolated
from support.packages import make_packages, make_wheel, wheel_files, wheel_name
from support.places import SERVER, TOP
from support.ports import free_port
from support.running import run_command
from support.server.front import Front, whole_lines
from support.server.kept import Kept
from support.serving import Asking, accepted, sha256

PAGE = f"{TOP}/docs/users/USING.md"
REASON = "it was <broken>, gr\u00f6\u00dfer als 1.0 \U0001f4a5"
# one for each person: no test run has more people
PORTS = 64
ASKED = "$server_port $status $request_method $request_uri|$sent_http_content_type|$http_accept"
ANN, BOB = "token-of-ann", "token:of:bob"
READER, PASSWORD = "reader", "s3cret"
# the module of a command
SHOUT = """import frob

def main():
    print("FROB", frob.VERSION)
"""


def made_packages(folder: str) -> dict:
    """The packages of the other tests, by project and file, each as its path and Requires-Python. And more: a release
    for later Pythons, one that is not final, a command, a backend, and a source archive whose build asks for that."""
    made: dict = {**make_packages(folder), "tiny-backend": {}, "shout": {}}

    def add(project, name, version, code, requires="", needs=(), more=()):
        file = wheel_name(name, version)
        files = wheel_files(name, version, code, needs, requires)
        make_wheel(f"{folder}/{file}", {**files, **dict(more)})
        made[project][file] = f"{folder}/{file}", requires

    add("frob", "frob", "2.0rc1", 'VERSION = "2.0rc1"\n')
    add("frob", "frob", "3.0", 'VERSION = "3.0"\n', requires=">=99")
    script = "shout-1.0.dist-info/entry_points.txt", "[console_scripts]\nshout = shout:main\n"
    add("shout", "shout", "1.0", SHOUT, needs=["frob>=1.0"], more=[script])
    backend, archive = make_isolated(folder)
    made["tiny-backend"]["tiny_backend-1.0-py3-none-any.whl"] = backend, ""
    made["frob"]["frob-0.8.tar.gz"] = archive, ""
    return made


def fill(index: Asking, packages: dict) -> None:
    """Uploads the packages past nginx, yanks frob 1.1, and adds ann, who owns `eggs`, and bob, who owns `ham`."""
    for project, files in packages.items():
        accepted(index.claim(project))
        for name, (path, requires) in files.items():
            with open(path, "rb") as file:
                accepted(index.upload(project, name, file.read(), requires))
    accepted(index.request(do="yank", name="frob", release="1.1", reason=REASON))
    for user, token, project in (("ann", ANN, "eggs"), ("bob", BOB, "ham")):
        accepted(index.request(do="add_user", user=user, office=False, token_sha256=sha256(token.encode())))
        accepted(index.claim(project, token))


def make_authority(folder: str, *more: str) -> str:
    """A certificate of an authority, and one that it gave to 127.0.0.1: `ca.pem`, and `pem` with its `key`. The first
    has `more` by openssl's options."""
    kind = ["-newkey", "ec", "-pkeyopt", "ec_paramgen_curve:prime256v1", "-nodes"]
    with open(f"{folder}/extensions", "w") as made:
        made.write("subjectAltName=IP:127.0.0.1\n")
    for words in (["req", "-x509", *kind, "-days", "2", "-subj", "/CN=Packages CA", *more, "-keyout",
                   f"{folder}/ca.key", "-out", f"{folder}/ca.pem"],
                  ["req", *kind, "-subj", "/CN=127.0.0.1", "-keyout", f"{folder}/key", "-out", f"{folder}/request"],
                  ["x509", "-req", "-in", f"{folder}/request", "-CA", f"{folder}/ca.pem", "-CAkey", f"{folder}/ca.key",
                   "-CAcreateserial", "-days", "2", "-extfile", f"{folder}/extensions", "-out", f"{folder}/pem"]):
        ended = run_command(["openssl", *words])
        if ended.returncode:
            raise SystemExit(f"openssl ended with {ended.stdout}")
    return f"{folder}/pem"


class Altered(ThreadingHTTPServer):
    """An index whose pages have other texts at a pattern, in front of the one at this port. It is for breaks."""

    daemon_threads = True

    def __init__(self, index_port: int, pattern: str, text: str) -> None:
        super().__init__(("127.0.0.1", 0), Passing)
        self.index_port, self.pattern, self.text = index_port, re.compile(pattern.encode()), text.encode()

    def __enter__(self) -> Altered:
        threading.Thread(target=self.serve_forever, kwargs={"poll_interval": 0.05}, daemon=True).start()
        return self

    def __exit__(self, *_) -> None:
        self.shutdown()
        self.server_close()


@contextmanager
def altered(port: int, how: str | None) -> Iterator[int]:
    """The port of an index whose pages are altered as --alter says, `PATTERN => TEXT`, or its own if they are not."""
    if not how:
        yield port
        return
    pattern, _, text = how.partition(" => ")
    with Altered(port, pattern, text) as made:
        yield made.server_port


class Passing(BaseHTTPRequestHandler):
    """Passes one request on to the index, and its reply back."""

    server: Altered

    def do_GET(self) -> None:
        body = self.rfile.read(int(self.headers.get("Content-Length", 0)))
        connection = http.client.HTTPConnection("127.0.0.1", self.server.index_port, timeout=60)
        connection.request(self.command, self.path, body, dict(self.headers.items()))
        reply = connection.getresponse()
        data = reply.read()
        connection.close()
        if self.path.startswith("/simple/"):
            data = self.server.pattern.sub(self.server.text, data)
        self.send_response_only(reply.status)
        for name, value in reply.headers.items():
            if name != "Content-Length":
                self.send_header(name, value)
        self.send_header("Content-Length", str(len(data)))
        self.end_headers()
        self.wfile.write(data)

    do_POST = do_PUT = do_GET

    def log_message(self, *_) -> None:
        """Nothing is said of what passes."""


class Gate(Front):
    """nginx as server/nginx has it, with uploads by forms. It has a port for each person, so that its log tells who
    asked what."""

    def __init__(self, folder: str, certificate: str, index_port: int, service_port: int, ports: int = PORTS,
                 has_password: bool = False) -> None:
        super().__init__(folder, certificate, index_port)
        self.authority, self.asked_log = certificate.replace("/pem", "/ca.pem"), f"{folder}/asked.log"
        self.trust.load_verify_locations(self.authority)
        self.free = [free_port() for _ in range(ports)]
        with open(f"{folder}/conf.d/packages.conf") as kept:
            text = kept.read()
        listens = "\n    ".join(f"listen 127.0.0.1:{port} ssl;" for port in self.free)
        self.put("conf.d/packages.conf", text, **{f"listen 127.0.0.1:{self.port} ssl;": listens})
        self.port = self.next_port()
        self.put("conf.d/asked.conf", f"log_format asked '{ASKED}';\n")
        self.put("index/server.d/asked.conf", f"access_log {self.asked_log} asked;\n")
        with open(f"{SERVER}/nginx/legacy.conf") as kept:
            self.put("index/server.d/legacy.conf", kept.read(), **{"127.0.0.1:8090": f"127.0.0.1:{service_port}"})
        if has_password:
            digest = run_command(["openssl", "passwd", "-apr1", PASSWORD]).stdout.strip()
            self.put("readers", f"{READER}:{digest}\n")
            self.put("index/server.d/readers.conf", f"auth_basic packages;\nauth_basic_user_file {folder}/readers;\n")

    def __enter__(self) -> Gate:
        super().__enter__()
        return self

    def next_port(self) -> int:
        """A port of nginx that no other person uses."""
        return self.free.pop()

    def asked_at(self, port: int) -> list:
        """What was asked at this port, in order: the status, the method, the path, the reply's type, and Accept."""
        pattern = rf"^{port} (\d+) (\S+) ([^\s|]+)\|([^|\n]*)\|(.*)$"
        return re.findall(pattern, "".join(whole_lines(self.asked_log)), re.M)


class World:
    """The index behind nginx, the recipes of USING, and a folder for whoever follows them. A second nginx wants
    a password of its readers."""

    def __init__(self, program: str, folder: str, altered: str | None = None) -> None:
        self.program, self.folder, self.bin, self.altered = program, folder, f"{folder}/bin", altered
        self.recipes, self.unmarked = read_recipes(PAGE)
        self.packages = made_packages(folder)
        os.mkdir(self.bin)
        # the one file that an operator gives to people
        ended = run_command(["python3", "-B", f"{TOP}/indexctl/build.py", f"{self.bin}/indexctl"])
        if ended.returncode:
            raise SystemExit(f"indexctl/build.py ended with {ended.stdout}")

    def __enter__(self) -> World:
        certificate = make_authority(self.folder)
        with ExitStack() as stack:
            index = stack.enter_context(Kept(self.program, f"{self.folder}/index.db"))
            fill(index, self.packages)
            port = stack.enter_context(altered(index.port, self.altered))
            service = stack.enter_context(Service(index.port))
            self.gate = stack.enter_context(Gate(f"{self.folder}/gate", certificate, port, service.port))
            self.locked = stack.enter_context(Gate(f"{self.folder}/locked", certificate, port, service.port, 24, True))
            for gate in (self.gate, self.locked):
                os.symlink(f"{self.bin}/indexctl", f"{gate.folder}/indexctl")
            self.index = index
            self.stack = stack.pop_all()
        return self

    def __exit__(self, *_) -> None:
        self.stack.close()

    def digest(self, file: str) -> str:
        with open(self.packages[file.partition("-")[0]][file][0], "rb") as kept:
            return sha256(kept.read())
