"""nginx as server/nginx has it, in front of an index, with a certificate that is made on the spot."""
from __future__ import annotations

import http.client
import json
import os
import re
import shutil
import signal
import socket
import ssl
import subprocess

from support.places import SERVER
from support.ports import free_port
from support.running import run_command
from support.serving import Asking, Running, exchange, listens

# What a distribution's nginx.conf says around the server, with the module that names callers, if it is there.
MODULES = "include /etc/nginx/modules-enabled/*-mod-http-js.conf;\n"
MAIN = """worker_processes 2;
daemon off;
pid {folder}/nginx.pid;
error_log {folder}/error.log;
events {{ worker_connections 768; }}
http {{
    access_log {folder}/access.log;
    sendfile on;
    gzip on;
    default_type application/octet-stream;
    client_body_temp_path {folder}/body;
    proxy_temp_path {folder}/proxy;
    fastcgi_temp_path {folder}/fastcgi;
    uwsgi_temp_path {folder}/uwsgi;
    scgi_temp_path {folder}/scgi;
    include conf.d/*.conf;
}}
"""
WORKERS = int(re.findall(r"^worker_processes (\d+);", MAIN)[0])


def replaced(text: str, **places: str) -> str:
    """The text with each of these in another place, which has to be there."""
    for old, new in places.items():
        if old not in text:
            raise SystemExit(f"{old} is not in the configuration any more")
        text = text.replace(old, new)
    return text


def kept(name: str) -> str:
    """The text of a file of server/nginx."""
    with open(f"{SERVER}/nginx/{name}") as conf:
        return conf.read()


def whole_lines(path: str) -> list[str]:
    """The lines of a log of nginx, but one that it is just writing: of that a part may be there."""
    with open(path, errors="replace") as log:
        return [it for it in log if it.endswith("\n")]


def seconds_of_waits() -> float:
    """How long nginx waits for an index that is away, before it says so."""
    waits, units = re.findall(r"auth_delay (\d+)(m?s);", kept("packages.conf")), {"s": 1.0, "ms": 0.001}
    return sum(int(number) * units[unit] for number, unit in waits)


def has_ipv6() -> bool:
    """Whether this machine has a loopback of IPv6."""
    try:
        socket.create_server(("::1", 0), family=socket.AF_INET6).close()
    except OSError:
        return False
    return True


def make_certificate(folder: str, names: str = "IP:127.0.0.1,IP:::1") -> str:
    """The path of a certificate for loopback or these names, with its key beside it."""
    host = ["-subj", "/CN=127.0.0.1", "-addext", f"subjectAltName={names}"]
    kind = ["-x509", "-newkey", "ec", "-pkeyopt", "ec_paramgen_curve:prime256v1", "-nodes", "-days", "2"]
    ended = run_command(["openssl", "req", *kind, *host, "-keyout", f"{folder}/key", "-out", f"{folder}/pem"])
    if ended.returncode:
        raise SystemExit(f"openssl ended with {ended.stdout}")
    return f"{folder}/pem"


def make_chain(folder: str, host: str) -> str:
    """A folder with an authority `root.pem`, a leaf `leaf.pem` for this host by another one below that, both as
    `fullchain.pem`, and the leaf's `key`."""
    os.makedirs(folder)
    new = "openssl req -newkey ec -pkeyopt ec_paramgen_curve:prime256v1 -nodes"
    script = f"""{new} -x509 -days 2 -subj /CN=root -keyout root.key -out root.pem
        {new} -subj /CN=middle -keyout middle.key -out middle.csr
        printf 'basicConstraints=critical,CA:TRUE\\n' > middle.ext
        openssl x509 -req -days 2 -in middle.csr -CA root.pem -CAkey root.key -CAcreateserial -extfile middle.ext \\
            -out middle.pem
        {new} -subj /CN={host} -keyout key -out leaf.csr
        printf 'subjectAltName=DNS:{host}\\n' > leaf.ext
        openssl x509 -req -days 2 -in leaf.csr -CA middle.pem -CAkey middle.key -CAcreateserial -extfile leaf.ext \\
            -out leaf.pem
        cat leaf.pem middle.pem > fullchain.pem"""
    ended = run_command(["sh", "-ec", f"cd '{folder}'\n{script}"])
    if ended.returncode:
        raise SystemExit(f"openssl ended with {ended.stdout}")
    return folder


class Nginx(Running):
    """nginx in a folder of its own, on a free port. The files of `conf.d` there say what it serves."""

    def __init__(self, folder: str):
        self.folder, self.port = folder, free_port()
        os.makedirs(f"{folder}/conf.d")
        # as Debian's folder of nginx has them, which a line for a module counts from
        os.symlink("/usr/lib/nginx/modules", f"{folder}/modules")
        with open(f"{folder}/nginx.conf", "w") as conf:
            conf.write(MODULES + MAIN.format(folder=folder))
        words = ["nginx", "-p", folder, "-e", f"{folder}/error.log", "-c", f"{folder}/nginx.conf"]
        super().__init__(words, stdout=subprocess.DEVNULL, stderr=subprocess.DEVNULL, start_new_session=True)

    def put(self, target: str, text: str, **places: str) -> None:
        os.makedirs(os.path.dirname(f"{self.folder}/{target}"), exist_ok=True)
        with open(f"{self.folder}/{target}", "w") as made:
            made.write(replaced(text, **places))

    def __enter__(self) -> Nginx:
        tested = run_command([*self.words, "-t"])
        if tested.returncode:
            raise SystemExit(f"nginx refuses its configuration: {tested.stdout}")
        super().__enter__()
        if not listens(self.port):
            self.__exit__()
            raise SystemExit("nginx does not listen")
        return self

    def kill(self) -> None:
        """Its workers too, which it had no time to end: they would go on to listen."""
        os.killpg(self.process.pid, signal.SIGKILL)

    def log(self) -> str:
        """What nginx says of itself and of requests that failed."""
        with open(f"{self.folder}/error.log", errors="replace") as log:
            return log.read()

    def has_met_nobody(self, request: str) -> bool:
        """Whether the index was away for this request, by its method and path."""
        return any("Connection refused" in line and f'request: "{request} ' in line for line in self.log().splitlines())

    def errors(self) -> list[str]:
        """What nginx says of itself. That the index was away is an error, and that a page changed as it was read,
        critical."""
        return [line for line in self.log().splitlines() if re.search(r"\[(alert|emerg)\]", line)]


class Front(Nginx, Asking):
    """nginx in front of the index at this port of loopback, or at this address. A plain one speaks no TLS. Pages are
    kept for so many seconds."""

    def __init__(self, folder: str, certificate: str, behind: int | str, pypi: int | None = None,
                 is_plain: bool = False, page_seconds: int = 1):
        super().__init__(folder)
        self.certificate, self.url = certificate, f"http{'' if is_plain else 's'}://127.0.0.1:{self.port}"
        self.trust = ssl.create_default_context(cafile=certificate)
        for inner in ("index/server.d", "cache"):
            os.makedirs(f"{folder}/{inner}")
        self.compressing = free_port()
        compressing = {"127.0.0.1:8079": f"127.0.0.1:{self.compressing}"}
        self.put("conf.d/packages.conf", kept("packages.conf"), **compressing, **{
            "listen 443 ssl;": f"listen 127.0.0.1:{self.port}{'' if is_plain else ' ssl'};",
            "listen [::]:443 ssl;": f"listen [::1]:{self.port} ssl;" if has_ipv6() and not is_plain else "",
            "/usr/local/bin/indexctl": f"{folder}/indexctl",
            "/etc/ssl/packages.example.pem": certificate, "/var/cache/nginx/": f"{folder}/cache/",
            # a machine that tries this may have less room
            "/../../../../etc/nginx/index/": f"/../../../..{folder}/index/",
            "/var/log/package-index/changes.log": f"{folder}/index-changes.log",
            "/var/log/nginx/": f"{folder}/", "/run/index-full": f"{folder}/index-full", "min_free=2g": "min_free=16m",
            "/etc/ssl/packages.example.key": f"{os.path.dirname(certificate)}/key"})
        self.put("index/kept-pages.conf", kept("kept-pages.conf"), **compressing,
                 **({" 1s;": f" {page_seconds}s;"} if page_seconds != 1 else {}))
        for name in ("callers.conf", "callers.js"):
            self.put(f"index/{name}", kept(name))
        self.put("index/indexes.conf", kept("one-index.conf"),
                 **{"127.0.0.1:8080": behind if isinstance(behind, str) else f"127.0.0.1:{behind}"})
        if pypi:
            self.put("index/server.d/with-pypi.conf", kept("with-pypi.conf"),
                     **{"https://pypi.org": f"http://127.0.0.1:{pypi}"})

    def __enter__(self) -> Front:
        super().__enter__()
        return self

    def ask(self, method: str, path: str, body=None, host: str = "127.0.0.1", **headers) -> tuple:
        connection = http.client.HTTPSConnection(host, self.port, timeout=60, context=self.trust)
        return exchange(connection, method, path, body, headers)

    def changes(self) -> list[dict]:
        """The lines of the log of changes."""
        return [json.loads(it) for it in whole_lines(f"{self.folder}/index-changes.log")]


def is_here() -> bool:
    return all(map(shutil.which, ("nginx", "openssl")))
