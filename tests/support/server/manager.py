"""What stands for systemd: a `systemctl` that starts and stops an index, and writes down what it is asked."""
from __future__ import annotations

import http.server
import os
import signal
from urllib.parse import unquote

from support.needed import want_command
from support.proxy import InThread
from support.server.front import WORKERS, Front
from support.server.kept import Kept
from support.server.waits import wait_for


class Manager(InThread):
    """Stands for systemctl, in a folder for PATH: it stops and starts an index that is kept, and has nginx read its
    files again. `asked` is what it was asked."""

    def __init__(self, folder: str, index: Kept | None = None, front: Front | None = None):
        want_command("curl", "curl")
        self.folder, self.index, self.front = folder, index, front
        self.asked: list[str] = []
        # what `systemctl show` prints, by unit and property; nothing for others
        self.shown: dict[tuple[str, str], str] = {}
        manager = self

        class Asked(http.server.BaseHTTPRequestHandler):
            def do_GET(self) -> None:
                asked = unquote(self.path[1:])
                said = manager.show(asked) if asked.startswith("show") else manager.do(asked)
                self.send_response_only(200)
                self.end_headers()
                self.wfile.write((said or "").encode())

        self.server = http.server.ThreadingHTTPServer(("127.0.0.1", 0), Asked)
        os.makedirs(folder)
        with open(f"{folder}/systemctl", "w") as script:
            script.write("#!/bin/sh\n"
                         f'exec curl -fsS "http://127.0.0.1:{self.server.server_port}/$(echo "$*" | tr " " +)"\n')
        os.chmod(script.name, 0o755)

    def show(self, asked: str) -> str:
        _, name, _, unit = asked.split("+")
        return self.shown.get((unit, name.removeprefix("--property=")), "")

    def do(self, asked: str) -> None:
        self.asked.append(asked.replace("+", " "))
        what, *units = asked.split("+")
        if self.index and "index.service" in units:
            if what == "stop":
                self.index.stop()
            if what == "start":
                self.index.is_wanted.set()
        if self.front and "nginx.service" in units:
            reload(self.front.process.pid)


def reload(nginx: int) -> None:
    """Has nginx read its files again, and waits until no process serves by the old ones. One that nginx has just begun
    has another name at first."""
    assert wait_for(lambda: len(workers(nginx)) == WORKERS)
    before = workers(nginx)
    os.kill(nginx, signal.SIGHUP)
    assert wait_for(lambda: not any(is_serving(pid) for pid in before))


def reopen(nginx: int, old: str) -> None:
    """Has nginx open its logs again, and waits until none of its processes writes into the old one."""
    os.kill(nginx, signal.SIGUSR1)
    assert wait_for(lambda: not any(has_open(pid, old) for pid in [nginx, *children(nginx)]))


def children(pid: int) -> list[int]:
    with open(f"/proc/{pid}/task/{pid}/children") as found:
        return [int(it) for it in found.read().split()]


def workers(nginx: int) -> list[int]:
    return [pid for pid in children(nginx) if is_serving(pid)]


def has_open(pid: int, path: str) -> bool:
    """Whether a process has this file open. One that has just ended has not."""
    def is_it(number: str) -> bool:
        try:
            return os.path.samefile(f"/proc/{pid}/fd/{number}", path)
        except FileNotFoundError:
            # closed meanwhile, or gone from its folder
            return False

    try:
        return any(map(is_it, os.listdir(f"/proc/{pid}/fd")))
    except (FileNotFoundError, ProcessLookupError):
        return False


def is_serving(pid: int) -> bool:
    """Whether a process is a worker of nginx that takes connections."""
    try:
        with open(f"/proc/{pid}/cmdline") as line:
            return line.read().rstrip("\0 ") == "nginx: worker process"
    except OSError:
        return False
