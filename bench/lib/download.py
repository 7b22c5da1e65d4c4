"""What bench measures of pip: how long it takes to download packages from the index behind nginx, from nginx's plain
files and from http.server."""
import io
import os
import sys
import tempfile
from contextlib import ExitStack
from time import monotonic

from lib.figures import goal, line, load, median
from lib.servers import Files, Python
from support.packages import make_wheel, wheel_files, wheel_name
from support.running import run_command
from support.server.front import Front, make_certificate
from support.serving import Index, accepted

NAMES, LENGTH = [f"package{number}" for number in range(30)], 50_000
# of the time that pip takes with plain files of nginx
MOST = 1.1


def write(path, data):
    os.makedirs(os.path.dirname(path))
    with open(path, "wb") as made:
        made.write(data)


def fill(index, root):
    """Packages in the index, and the same files and pages below this folder."""
    for name in NAMES:
        file, made = wheel_name(name, "1.0"), io.BytesIO()
        make_wheel(made, wheel_files(name, "1.0", f"# {os.urandom(LENGTH // 2).hex()}\n"))
        body = made.getvalue()
        accepted(index.claim(name))
        accepted(index.upload(name, file, body))
        write(f"{root}/files/{name}/{file}", body)
        write(f"{root}/simple/{name}/index.html", index.ask("GET", f"/simple/{name}/", Accept="text/html")[2])


def download_time(url, folder, number):
    """The seconds that pip takes, which keeps nothing from one time to the next."""
    words = [sys.executable, "-m", "pip", "download", "--isolated", "--no-deps", "--no-cache-dir",
             "--disable-pip-version-check", "--index-url", f"{url}/simple/", "--dest", f"{folder}/{number}"]
    begun = monotonic()
    ended = run_command([*words, *NAMES])
    took = monotonic() - begun
    if ended.returncode or len(os.listdir(f"{folder}/{number}")) != len(NAMES):
        raise SystemExit(f"pip downloads nothing from {url}: {ended.stdout}")
    return took


def bench_download(program):
    with tempfile.TemporaryDirectory() as folder, ExitStack() as running:
        # nginx's own user reads what is served there
        os.chmod(folder, 0o755)
        root = f"{folder}/files"
        index = running.enter_context(Index(program))
        fill(index, root)
        front = Front(f"{folder}/front", make_certificate(folder), index.port, is_plain=True)
        servers = {"index behind nginx": front, "nginx": Files(f"{folder}/alone", root), "http.server": Python(root)}
        took = {}
        for name, server in servers.items():
            port = running.enter_context(server).port
            os.mkdir(f"{folder}/{name}")
            took[name] = median(download_time, f"http://127.0.0.1:{port}", f"{folder}/{name}")
    ours, theirs = list(took.values())[:2]
    line("download", f"{len(NAMES)} packages of {LENGTH:,} bytes by pip: seconds",
         *(f"{name} {seconds:.2f}" for name, seconds in took.items()), f"ratio {ours / theirs:.2f}",
         goal(round(ours / theirs, 2), most=MOST), load())
