"""A machine of its own that systemd starts: an overlay of this one's root without a network, gone at the end; and
blocks of the pages that are pasted into a terminal there."""
from __future__ import annotations

import fcntl
import os
import pty
import select
import signal
import subprocess
import termios
import time
from subprocess import CompletedProcess

from support.running import run_command
from support.server.waits import wait_for

PATH = "/usr/sbin:/usr/bin:/sbin:/bin"
ROOT = """set -e
mount -t tmpfs -o size=1g none "$1"
mkdir "$1/upper" "$1/work" "$1/root"
mount -t overlay overlay -o "lowerdir=/,upperdir=$1/upper,workdir=$1/work" "$1/root"
echo "127.0.0.1 packages.example" >> "$1/root/etc/hosts"
exec systemd-nspawn --quiet --directory="$1/root" --boot --register=no --keep-unit --private-network --console=pipe \\
    --machine=index-test"""
DONE = b"all is d" + b"one"


class Machine:
    """`is_there` tells whether this machine lets us start one."""

    def __init__(self, folder: str) -> None:
        self.folder, self.init = f"{folder}/machine", 0
        os.mkdir(self.folder)

    def __enter__(self) -> Machine:
        words = ["unshare", "--mount", "--propagation", "private", "sh", "-c", ROOT, "sh", self.folder]
        with open(f"{os.path.dirname(self.folder)}/console", "w") as console:
            self.holder = subprocess.Popen(words, stdin=subprocess.DEVNULL, stdout=console, stderr=console)
        self.is_there = wait_for(self.is_up, 300)
        return self

    def is_up(self) -> bool:
        with open(f"/proc/{self.holder.pid}/task/{self.holder.pid}/children") as children:
            self.init = int((children.read().split() or ["0"])[0])
        return bool(self.init) and self.sh("systemctl is-system-running", 60).stdout.strip() in ("running", "degraded")

    def __exit__(self, *_: object) -> None:
        if self.init:
            os.kill(self.init, signal.SIGKILL)
        self.holder.terminate()
        self.holder.wait()

    def words(self, *words: str) -> list[str]:
        return ["nsenter", f"--target={self.init}", "--mount", "--uts", "--ipc", "--net", "--pid", *words]

    def sh(self, script: str, seconds: float = 600) -> CompletedProcess:
        return run_command(self.words("bash", "-c", f"cd /root; {script}"), seconds, PATH=PATH, HOME="/root",
                           DEBIAN_FRONTEND="noninteractive")

    def has_kept(self) -> bool:
        """Whether its index answers that somebody holds the name `kept`."""
        asked = "curl -s --retry 9 --retry-connrefused http://127.0.0.1:8080/names/kept"
        return '"held"' in self.sh(asked).stdout

    def put(self, path: str, source: str) -> None:
        """A file of this machine's, at a path of that one's."""
        run_command(["sh", "-c", 'exec "$@" < "$0"', source, *self.words("sh", "-c", f"cat > {path}")], PATH=PATH)

    def paste(self, block: str, end: str = "", once: str = "true") -> str:
        """What a terminal shows into which a block was pasted, up to its end, or to a Ctrl-C (INT) or the end of the
        terminal (HUP) as soon as the command `once` succeeds."""
        master, slave = pty.openpty()
        shell = subprocess.Popen(self.words("bash", "--norc", "-i"), stdin=slave, stdout=slave, stderr=slave,
                                 start_new_session=True, env={"PATH": PATH, "HOME": "/root", "PS1": "", "TERM": "dumb"},
                                 preexec_fn=lambda: fcntl.ioctl(0, termios.TIOCSCTTY, 0))
        os.close(slave)
        os.write(master, f"cd /root\n{block}".encode())
        assert wait_for(lambda: self.sh(once).returncode == 0, 300)
        if end == "INT":
            os.write(master, b"\x03")
        if end in ("", "INT"):
            os.write(master, b"\necho 'all is d''one'; exit\n")
            said = shown(master)
        os.close(master)
        shell.wait(timeout=60)
        return said.decode("utf-8", "replace") if end in ("", "INT") else ""


def shown(terminal: int, seconds: float = 300) -> bytes:
    """What a terminal shows until the end of what was pasted."""
    said, until = b"", time.monotonic() + seconds
    while DONE not in said and time.monotonic() < until:
        if select.select([terminal], [], [], 0.2)[0]:
            try:
                said += os.read(terminal, 65536)
            except OSError:
                break
    return said
