"""A virtual machine of qemu with a disk of its own, whose power and cable can be cut."""
from __future__ import annotations

import http.client
import json
import os
import socket
import subprocess
import threading
import time
from contextlib import suppress
from dataclasses import dataclass, field

from support.ports import free_port

# without hardware's help, so that it runs anywhere
MACHINE = ["qemu-system-x86_64", "-accel", "tcg", "-cpu", "Nehalem", "-M", "q35", "-smp", "1",
           "-nodefaults", "-no-user-config", "-no-reboot", "-display", "none"]
KERNEL_WORDS = ("console=ttyS0 quiet panic=-1 edd=off nokaslr tsc=reliable mitigations=off net.ifnames=0 "
                "random.trust_cpu=1 no_timer_check systemd.default_timeout_start_sec=900")
DISK_MIB, MEMORY_MIB = 160, 320
# DRBD has the second one, as on the page
DISKS = "unused", "disk"


class NoAnswer(Exception):
    """A guest does not do what it was told."""


@dataclass
class Guest:
    """`cable` are the ports of the two ends of the cable, its own first. `switch` is the command for a connection to
    the power switch."""
    name: str
    at: int
    folder: str
    boots: tuple[str, str]
    cable: tuple[int, int]
    switch: str
    process: subprocess.Popen | None = None
    address: str = "127.0.0.1"
    lock: threading.Lock = field(default_factory=threading.Lock)

    def __post_init__(self) -> None:
        self.agent, self.port = free_port(), free_port()
        os.makedirs(self.folder, exist_ok=True)
        for name in DISKS:
            with open(f"{self.folder}/{name}", "wb") as disk:
                disk.truncate(DISK_MIB << 20)

    def words(self) -> list[str]:
        kernel, initrd = self.boots
        words = [*MACHINE, "-m", f"{MEMORY_MIB}", "-serial", f"file:{self.folder}/console", "-qmp",
                 f"unix:{self.folder}/qmp,server=on,wait=off", "-kernel", kernel, "-initrd", initrd,
                 "-append", f"{KERNEL_WORDS} guest={self.name} at={self.at} systemd.hostname={self.name}"]
        for name in DISKS:
            words += ["-drive", f"file={self.folder}/{name},if=none,id={name},format=raw,cache=none,aio=threads",
                      "-device", f"virtio-blk-pci,drive={name},romfile="]
        front = (f"user,id=front,restrict=on,hostfwd=tcp:127.0.0.1:{self.agent}-:9000,"
                 f"hostfwd=tcp:127.0.0.1:{self.port}-:8080,guestfwd=tcp:10.0.2.100:80-cmd:{self.switch}")
        own, other = self.cable
        between = f"socket,id=link,udp=127.0.0.1:{other},localaddr=127.0.0.1:{own}"
        for number, (netdev, device) in enumerate(((front, "netdev=front"), (between, "netdev=link,id=cable")), 1):
            words += ["-netdev", netdev, "-device",
                      f"virtio-net-pci,{device},romfile=,mac=52:54:00:00:0{number}:0{self.at}"]
        return words

    def start(self) -> None:
        with suppress(FileNotFoundError):
            os.remove(f"{self.folder}/qmp")
        with open(f"{self.folder}/qemu", "ab") as said:
            self.process = subprocess.Popen(self.words(), stdin=subprocess.DEVNULL, stdout=said, stderr=said)

    def booted(self, patience: float = 900) -> float:
        """Waits until it takes commands, and returns the seconds that took."""
        begun, wait = time.monotonic(), 2.0
        while time.monotonic() < begun + patience and self.process and self.process.poll() is None:
            with suppress(OSError, http.client.HTTPException, ValueError):
                if self.sh("hostname", patience=wait)[1].strip() == self.name:
                    return time.monotonic() - begun
            # what is asked before it listens gets no answer, and on a busy machine an answer takes longer
            wait += 1
            time.sleep(0.1)
        raise NoAnswer(f"{self.name} does not boot: {self.said('qemu')} {self.said('console')}")

    def said(self, name: str) -> str:
        with open(f"{self.folder}/{name}", errors="replace") as kept:
            return kept.read()[-1500:]

    def sh(self, script: str, patience: float = 600) -> tuple[int, str]:
        """The status of a script of commands there, and what it printed."""
        connection = http.client.HTTPConnection(self.address, self.agent, timeout=patience)
        try:
            connection.request("POST", "/cgi-bin/run", script.encode() + b"\n")
            text = connection.getresponse().read().decode("utf-8", "replace")
        finally:
            connection.close()
        printed, _, status = text.rpartition("=")
        return int(status), printed

    def must(self, script: str, patience: float = 600) -> str:
        status, printed = self.sh(script, patience)
        if status:
            raise NoAnswer(f"{self.name}: {script!r} ended with {status}: {printed}")
        return printed

    def fetch(self, path: str, to: str) -> bool:
        """Copies a file of the guest; False if it is not there."""
        connection = http.client.HTTPConnection(self.address, self.agent, timeout=180)
        try:
            connection.request("GET", f"/root{path}")
            reply = connection.getresponse()
            body = reply.read()
        finally:
            connection.close()
        if reply.status == 200:
            with open(to, "wb") as written:
                written.write(body)
        return reply.status == 200

    def put_cable(self, is_in: bool) -> None:
        """Pulls the cable between the two out here, or puts it in."""
        with socket.socket(socket.AF_UNIX) as peer:
            peer.settimeout(60)
            peer.connect(f"{self.folder}/qmp")
            with peer.makefile("rw") as lines:
                lines.readline()
                ask(lines, "qmp_capabilities")
                ask(lines, "set_link", name="cable", up=is_in)

    def cut(self) -> None:
        """The power is gone."""
        with self.lock:
            if self.process:
                self.process.kill()
                self.process.wait()
                self.process = None


def ask(lines, command: str, **arguments) -> None:
    """One command to qemu itself."""
    lines.write(json.dumps({"execute": command, "arguments": arguments}) + "\n")
    lines.flush()
    while True:
        reply = json.loads(lines.readline())
        if "error" in reply:
            raise NoAnswer(f"qemu: {command}: {reply}")
        if "return" in reply:
            return
