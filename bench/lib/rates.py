"""What bench measures over loopback: a page and a file beside servers of plain files, as requests a second and as
ratios."""
import os
import shutil
import statistics
import subprocess
import sys
import tempfile
import threading
import time
from contextlib import ExitStack, contextmanager, nullcontext

from lib.figures import ROUNDS, goal, line, load
from lib.load import rate
from lib.servers import check_same, fetched
from support.serving import JSON_PAGE, Index, Running, accepted, free_port, listens

SECONDS = 1
PATHS = {"page": "/simple/page/", "file": "/files/file/file-1.0.tar.gz"}
WHAT = {"page": "100 files, ", "file": ""}
NGINX = """worker_processes 1;
daemon off;
pid {folder}/nginx.pid;
error_log {folder}/nginx.log;
events {{ worker_connections 1024; }}
http {{
    access_log off;
    keepalive_timeout 0;
    sendfile on;
    client_body_temp_path {folder}/body;
    proxy_temp_path {folder}/proxy;
    fastcgi_temp_path {folder}/fastcgi;
    uwsgi_temp_path {folder}/uwsgi;
    scgi_temp_path {folder}/scgi;
    server {{ listen 127.0.0.1:{port}; root {folder}/files; }}
}}
"""


def bytes_of(index, path):
    status, _, body = index.ask("GET", path, Accept=JSON_PAGE)
    if status != 200:
        raise SystemExit(f"bench: {path} has the status {status}")
    return body


def file_servers(folder):
    """The commands that serve the folder `files` of this folder, by name, and the port of each."""
    port = free_port()
    words = [sys.executable, "-m", "http.server", str(port), "--bind", "127.0.0.1", "--directory", f"{folder}/files"]
    servers = {"http.server": (words, port)}
    if shutil.which("nginx"):
        port = free_port()
        with open(f"{folder}/nginx.conf", "w") as conf:
            conf.write(NGINX.format(folder=folder, port=port))
        servers["nginx"] = ["nginx", "-p", folder, "-e", f"{folder}/nginx.log", "-c", f"{folder}/nginx.conf"], port
    return servers


def fill(index, body):
    """A project with 100 files, and one with this file."""
    for name in PATHS:
        accepted(index.claim(name))
    for number in range(100):
        accepted(index.upload("page", f"page-1.{number}-py3-none-any.whl", b"%d" % number, ">=3.8"))
    accepted(index.upload("file", "file-1.0.tar.gz", body, ">=3.8"))


def write_files(index, folder):
    """The bytes of the page and of the file, as files for the other servers. It gives their lengths."""
    os.makedirs(f"{folder}/files")
    lengths = {}
    for name, path in PATHS.items():
        body = bytes_of(index, path)
        lengths[name] = len(body)
        with open(f"{folder}/files/{name}", "wb") as kept:
            kept.write(body)
    return lengths


@contextmanager
def claims_between(index):
    """Claims a name each second, as long as the block lasts."""
    is_over = threading.Event()

    def claim_on():
        number = 0
        while not is_over.wait(timeout=1):
            accepted(index.claim(f"between-{time.monotonic_ns()}-{number}"))
            number += 1

    claimer = threading.Thread(target=claim_on, daemon=True)
    claimer.start()
    try:
        yield
    finally:
        is_over.set()
        claimer.join()


def rates(addresses):
    """The requests a second of each address in each round. The addresses take turns."""
    seen = {name: [] for name in addresses}
    for _ in range(ROUNDS):
        for name, url in addresses.items():
            seen[name].append(rate(url, SECONDS))
    return seen


def tell_rates(name, what, seen, goals):
    line(name, f"{what}: requests a second,", load())
    middle = {server: statistics.median(figures) for server, figures in seen.items()}
    for server, figures in seen.items():
        figure = f"{server} {middle[server]:,.0f} ({min(figures):,.0f} to {max(figures):,.0f})"
        if server == "index":
            line("", figure)
            continue
        ratio = middle["index"] / middle[server]
        more = [goal(ratio, least=goals[server])] if server in goals else []
        line("", figure, f"ratio {ratio:.2f}", *more)


# the file or page, which asking of it is measured, and the goals
MEASURED = (
    ("page", "asked again", {"http.server": 10, "nginx": 1}),
    ("page", "with one claim a second between", {"http.server": 5}),
    ("file", "asked again", {"nginx": 0.7}),
)
MEASURED_FIRST = (("page", "asked first", {"http.server": 2}), ("file", "asked first", {}))


def measure(index, servers, lengths, measured):
    for name, asking, goals in measured:
        addresses = {"index": f"http://127.0.0.1:{index.port}{PATHS[name]}"}
        addresses.update((server, f"http://127.0.0.1:{port}/{name}") for server, (_, port) in servers.items())
        check_same(addresses, fetched(addresses["index"]))
        with claims_between(index) if "between" in asking else nullcontext():
            seen = rates(addresses)
        tell_rates(name, f"{WHAT[name]}{lengths[name]:,} bytes, {asking}", seen, goals)


def bench_rates(program):
    """Beside the servers of files. A server that keeps nothing answers each request as one that asks first."""
    with tempfile.TemporaryDirectory() as folder, ExitStack() as running:
        os.chmod(folder, 0o755)
        body = os.urandom(1 << 20)
        index = running.enter_context(Index(program))
        keeps_none = running.enter_context(Index(program, keep=0))
        for each in (index, keeps_none):
            fill(each, body)
        lengths = write_files(index, folder)
        servers = file_servers(folder)
        for words, port in servers.values():
            running.enter_context(Running(words, stdout=subprocess.DEVNULL, stderr=subprocess.DEVNULL))
            if not listens(port, patience=5):
                raise SystemExit(f"bench: nobody listens on port {port}")
        measure(index, servers, lengths, MEASURED)
        measure(keeps_none, servers, lengths, MEASURED_FIRST)
