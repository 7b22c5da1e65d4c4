"""Two machines of user-mode Linux: Debian's kernel as a process of this machine, which is many times faster than an
emulated one. They are in a network of the test's own, which has a bridge for the cable between them."""
from __future__ import annotations

import os
import signal
import subprocess
import threading
from collections.abc import Iterator
from contextlib import contextmanager

import pytest
from support.needed import tell_missing, want_command
from support.running import built
from support.server.network import ip
from support.two_machines.guests import Guest
from support.two_machines.pair import NAMES, Pair
from support.two_machines.switch import Switch

PROGRAM, MODULES = "/usr/bin/linux.uml", "/usr/lib/uml/modules"
MEMORY, DISK_MIB = "640M", 160
# this machine in the network of the guests, and the port of their power switch
FRONT, SWITCH_PORT = "10.0.2.1", 80
# of each guest: to this machine, and to the other one
LINKS = "front", "cable"


def want_packages() -> None:
    """Skips the test without what such guests need."""
    if os.geteuid() != 0:
        pytest.skip("only root may make a network and a whole Debian")
    want_command("debootstrap", "debootstrap")
    if not os.path.exists(PROGRAM):
        tell_missing(PROGRAM, "user-mode-linux")


class NativeGuest(Guest):
    """Its first disk is a copy of `root`."""

    def __init__(self, name: str, at: int, folder: str, root: str) -> None:
        self.name, self.at, self.folder = name, at, folder
        self.process: subprocess.Popen | None = None
        self.lock = threading.Lock()
        self.address, self.agent, self.port = f"10.0.2.1{at}", 9000, 8080
        os.makedirs(folder)
        subprocess.run(["cp", "--sparse=always", root, f"{folder}/root"], check=True)
        with open(f"{folder}/disk", "wb") as disk:
            disk.truncate(DISK_MIB << 20)
        for link in LINKS:
            ip(f"tuntap add {link}{at} mode tap")
            ip(f"link set {link}{at} master {link} up")

    def __repr__(self) -> str:
        return self.name

    def words(self) -> list[str]:
        # The processes of a guest wait for each other at each of their calls, so a guest is many times faster on one
        # processor. Others may be at work there, and a machine that is silent for want of it loses its power.
        processors = sorted(os.sched_getaffinity(0))
        first = ["nice", "-n", "-15", "taskset", "-c", f"{processors[-self.at % len(processors)]}"]
        # gro=1: else it drops the larger packets of this machine
        links = [f"vec{at}:transport=tap,ifname={link}{self.at},depth=32,gro=1" for at, link in enumerate(LINKS)]
        disks = [f"ubd{at}={self.folder}/{name}" for at, name in enumerate(("root", "disk"))]
        return [*first, PROGRAM, f"mem={MEMORY}", *disks, "root=/dev/ubda", "rw", *links, "con=null", "con0=fd:0,fd:1",
                "quiet", "panic=1", f"at={self.at}", f"systemd.hostname={self.name}",
                "systemd.default_timeout_start_sec=900"]

    def start(self) -> None:
        library = built("whole_fp_registers", self.folder)
        with open(f"{self.folder}/console", "ab") as said:
            self.process = subprocess.Popen(self.words(), stdin=subprocess.DEVNULL, stdout=said, stderr=said,
                                            start_new_session=True, env={**os.environ, "LD_PRELOAD": library,
                                                                         "TMPDIR": "/dev/shm", "HOME": self.folder})

    def said(self, name: str) -> str:
        return "" if name == "qemu" else super().said(name)

    def put_cable(self, is_in: bool) -> None:
        # out of the bridge: a guest gives a link up that goes down
        ip(f"link set cable{self.at} {'master cable' if is_in else 'nomaster'}")

    def cut(self) -> None:
        with self.lock:
            if self.process:
                os.killpg(self.process.pid, signal.SIGKILL)
                self.process.wait()
                self.process = None


class NativePair(Pair):
    def __init__(self, folder: str, root: str, switch: Switch) -> None:
        self.switch = switch
        self.guests = [NativeGuest(name, at, f"{folder}/{name}", root) for at, name in enumerate(NAMES, 1)]
        switch.guests.update({guest.name: guest for guest in self.guests})


@contextmanager
def two_native_guests(folder: str, root: str) -> Iterator[NativePair]:
    """In a network of the test's own, which the process has to be in."""
    for link in LINKS:
        ip(f"link add {link} type bridge")
        ip(f"link set {link} up")
    ip(f"address add {FRONT}/24 dev front")
    with Switch((FRONT, SWITCH_PORT)) as switch:
        pair = NativePair(folder, root, switch)
        try:
            yield pair
        finally:
            for guest in pair.guests:
                guest.cut()
