"""A network of the tests' own: network namespaces, linked to each other and to nothing else."""
from __future__ import annotations

import ctypes
import os
import subprocess
from collections.abc import Iterator, Sequence
from contextlib import ExitStack, contextmanager

from support.running import run_command

# addresses for documentation, which no network has
HERE, THERE = "192.0.2.1", "192.0.2.11"
CLONE_NEWNET = 0x40000000
LIBC = ctypes.CDLL(None, use_errno=True)


class Refused(Exception):
    """This machine refuses a call or a command that makes a network."""


def call(name: str, *words: int) -> None:
    """A call of the C library."""
    if getattr(LIBC, name)(*words):
        raise Refused(f"{name}(CLONE_NEWNET): {os.strerror(ctypes.get_errno())}")


def ip(words: str, under: Sequence[str] = ()) -> None:
    """Runs `ip` with these words, under a command if one is given."""
    ended = run_command([*under, "ip", *words.split()])
    if ended.returncode:
        raise Refused(f"ip {words}: {ended.stdout.strip()}")


def forget_host() -> None:
    """nginx's host forgets where the other is, and what it has for one that it did not find."""
    ip("neighbour flush dev switch")


class Host:
    """A host with an address and a cable. `under` are the words of a command that becomes one on this host."""

    def __init__(self) -> None:
        self.address = THERE
        self.under: Sequence[str] = ()
        words = ["unshare", "--net", "sh", "-c", "echo ready; exec sleep 3600"]
        self.holder = subprocess.Popen(words, stdin=subprocess.DEVNULL, stdout=subprocess.PIPE,
                                       stderr=subprocess.STDOUT, text=True)

    def __enter__(self) -> Host:
        assert self.holder.stdout
        said = self.holder.stdout.readline()
        try:
            if said != "ready\n":
                raise Refused(said.strip())
            ip(f"link add cable type veth peer name eth0 netns {self.holder.pid}")
            ip("link set cable master switch up")
            self.under = ["nsenter", f"--target={self.holder.pid}", "--net", "--"]
            ip(f"address add {self.address}/24 dev eth0", self.under)
            for link in ("lo", "eth0"):
                ip(f"link set {link} up", self.under)
        except BaseException:
            self.__exit__()
            raise
        return self

    def __exit__(self, *_: object) -> None:
        self.holder.kill()
        self.holder.wait()
        if self.holder.stdout:
            self.holder.stdout.close()

    @contextmanager
    def unplugged(self) -> Iterator[None]:
        """The host's cable is out as long as the block lasts, and nginx's host has noticed, as it does in seconds."""
        ip("link set eth0 down", self.under)
        forget_host()
        try:
            yield
        finally:
            ip("link set eth0 up", self.under)


class Loopback:
    """An address of loopback that stands for a host, with a cable that stays in."""

    def __init__(self) -> None:
        self.address, self.under = "127.0.0.2", ()

    @contextmanager
    def unplugged(self) -> Iterator[None]:
        yield


@contextmanager
def of_its_own() -> Iterator[None]:
    """The caller's thread, and what it starts, has a network of its own as long as the block lasts, with a switch for
    hosts."""
    before = os.open("/proc/thread-self/ns/net", os.O_RDONLY)
    try:
        call("unshare", CLONE_NEWNET)
        try:
            ip("link set lo up")
            ip("link add switch type bridge")
            ip(f"address add {HERE}/24 dev switch")
            ip("link set switch up")
            yield
        finally:
            call("setns", before, CLONE_NEWNET)
    finally:
        os.close(before)


@contextmanager
def another_host() -> Iterator[tuple[Host | Loopback, Refused | None]]:
    """A host in a network of its own, or an address of loopback and what was refused."""
    with ExitStack() as made:
        host: Host | Loopback
        try:
            made.enter_context(of_its_own())
            host, refused = made.enter_context(Host()), None
        except Refused as end:
            made.close()
            host, refused = Loopback(), end
        yield host, refused
