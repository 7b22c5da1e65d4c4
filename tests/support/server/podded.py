"""The pod of the container image, by podman with a store of its own."""
from __future__ import annotations

import json
import os
import signal
import ssl
import time
import urllib.error
import urllib.request
from subprocess import CompletedProcess
from typing import Callable, Optional

from support.ports import free_port
from support.running import run_command
from support.serving import ACCEPTED, sha256

CONTAINERS = ("index-index", "index-nginx", "index-follow")
# cgroups and limits as any machine has them; its own limits may be lower than podman's
SETTING = """[containers]
default_ulimits = ["nofile=4096:4096", "nproc=4096:4096"]
[engine]
runtime = "runc"
cgroup_manager = "cgroupfs"
events_logger = "none"
"""
PATIENCE = 300


def until(holds: Callable[[], object]) -> object:
    """Waits until something holds, and returns it."""
    end = time.monotonic() + PATIENCE
    while time.monotonic() < end:
        found = holds()
        if found:
            return found
        time.sleep(0.2)
    raise AssertionError(f"it does not hold after {PATIENCE} s")


class Pod:
    """The pod, at a free port of loopback."""

    def __init__(self, folder: str) -> None:
        self.folder, self.port, self.token = folder, free_port(), ""
        with open(f"{folder}/containers.conf", "w") as made:
            made.write(SETTING)

    def podman(self, *words: str) -> CompletedProcess:
        """How podman ends."""
        stored = ["--root", f"{self.folder}/stored", "--runroot", f"{self.folder}/run"]
        return run_command(["podman", *stored, *words], PATIENCE, CONTAINERS_CONF=f"{self.folder}/containers.conf")

    def pasted(self, block: str) -> CompletedProcess:
        """How a block of the page ends, with this podman and port, in the folder of the pod."""
        stored = f"command podman --root {self.folder}/stored --runroot {self.folder}/run"
        here = f'podman() {{ {stored} "$@" | sed "s/hostPort: 8443/hostPort: {self.port}/"; }}'
        words = ["bash", "-c", f"cd {self.folder}\nset -o pipefail\n{here}\n{block}"]
        return run_command(words, 2 * PATIENCE, CONTAINERS_CONF=f"{self.folder}/containers.conf")

    def end(self) -> None:
        """Ends all, and leaves nothing of its store."""
        self.podman("pod", "rm", "--force", "--all")
        self.podman("volume", "rm", "--force", "--all")
        self.podman("rmi", "--force", "--all")
        with open("/proc/self/mounts") as kept:
            mounted = [it for it in (line.split()[1] for line in kept) if it.startswith(f"{self.folder}/")]
        # what was mounted last is inside
        for folder in reversed(mounted):
            run_command(["umount", "--lazy", folder], PATIENCE)

    def trust(self) -> None:
        """Waits until nginx has a certificate, and keeps it."""
        def given() -> str:
            said = self.podman("exec", "index-nginx", "cat", "/etc/index-tls/tls.crt").stdout
            return said if said.endswith("-----END CERTIFICATE-----\n") else ""
        with open(f"{self.folder}/pem", "w") as made:
            made.write(str(until(given)))

    def ask(self, method: str, path: str, body: Optional[bytes] = None) -> Optional[tuple[int, bytes]]:
        """The reply to a request of the office through nginx; none if no whole one came."""
        trusted = ssl.create_default_context(cafile=f"{self.folder}/pem")
        asked = urllib.request.Request(f"https://localhost:{self.port}{path}", body, method=method, headers={
            "X-Index-Token": self.token, "X-Index-SHA256": sha256(body or b"")})
        try:
            with urllib.request.urlopen(asked, timeout=60, context=trusted) as reply:
                return reply.status, reply.read()
        except urllib.error.HTTPError as end:
            return end.code, end.read()
        except OSError:
            return None

    def claim(self, name: str) -> bool:
        """Whether a claim is accepted."""
        reply = self.ask("POST", "/requests", json.dumps({"do": "claim", "name": name}).encode())
        return reply == (200, ACCEPTED)

    def upload(self, name: str, file: str, body: bytes) -> bool:
        """Whether an upload is accepted."""
        return self.ask("PUT", f"/files/{name}/{file}", body) == (201, ACCEPTED)

    def answers(self) -> bool:
        reply = self.ask("GET", "/names/x")
        return reply is not None and reply[0] == 200

    def disk(self) -> str:
        """The folder of the index, as root of this machine sees it."""
        return self.podman("volume", "inspect", "--format", "{{.Mountpoint}}", "index-data").stdout.strip()

    def process(self, container: str = "index-index") -> int:
        """The first process of a container; 0 if it does not run."""
        said = self.podman("inspect", "--format", "{{.State.Pid}}", container).stdout.split()
        return int(said[-1]) if said and said[-1].isdigit() else 0

    def kill(self) -> None:
        """SIGKILL to all of the container of the index, and waits until podman has started the next one."""
        before = self.process()
        os.kill(before, signal.SIGKILL)
        until(lambda: self.process() not in (0, before))
