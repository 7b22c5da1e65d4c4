"""A file system of the kernel on a recording disk."""
from __future__ import annotations

import ctypes
import fcntl
import functools
import os
import random
import subprocess
import threading
import time
from contextlib import suppress
from types import TracebackType

from support.disk.recording import RecordingDisk

# of linux/fs.h: the kernel drops what it has in memory of a device
BLKFLSBUF = 0x1261
# of linux/sched.h and linux/mount.h
CLONE_NEWNS, MS_REC, MS_PRIVATE = 0x20000, 1 << 14, 1 << 18
MIB = 1 << 20
# the least that each file system takes, in MiB
SIZES = {"ext4": 48, "xfs": 320, "btrfs": 128}
# nothing is written but by the file system itself, so that all of it is in the record
MAKE = {
    "ext4": ["mkfs.ext4", "-q", "-F", "-E", "nodiscard,lazy_itable_init=0,lazy_journal_init=0"],
    "xfs": ["mkfs.xfs", "-q", "-K", "-f"],
    "btrfs": ["mkfs.btrfs", "-q", "-K", "-f"],
}


def missing(file_system: str) -> str:
    """What this machine lacks for a file system on a recording disk, or nothing."""
    if os.geteuid() != 0:
        return "only root may mount"
    for path in ("/dev/fuse", "/dev/loop-control"):
        if not os.path.exists(path):
            return f"{path} is not there"
    if subprocess.run(["which", MAKE[file_system][0]], stdout=subprocess.DEVNULL).returncode:
        package = "e2fsprogs" if file_system == "ext4" else f"{file_system}progs"
        return f"{MAKE[file_system][0]} is not installed: package {package} of Debian has it"
    return ""


@functools.cache
def have_own_mounts() -> None:
    """From here on this process, and what it starts, has mounts of its own. A namespace of mounts that another program
    makes would else keep what is mounted here, also when it is unmounted, and the next mount would find what the kernel
    has of it in memory in place of the disk."""
    libc = ctypes.CDLL(None, use_errno=True)
    if libc.unshare(CLONE_NEWNS) or libc.mount(None, b"/", None, MS_REC | MS_PRIVATE, None):
        code = ctypes.get_errno()
        raise OSError(code, os.strerror(code), "mounts of its own")


def command(*words: str) -> None:
    """Runs a command, which has to succeed within a minute."""
    ended = subprocess.run(words, stdin=subprocess.DEVNULL, stdout=subprocess.PIPE, stderr=subprocess.STDOUT, text=True,
                           timeout=60)
    if ended.returncode:
        raise OSError(f"{' '.join(words)}: {ended.stdout}")


class Mounted:
    """A recording disk with a loop device on it, and the folder where its file system is mounted. The disk has so many
    MiB more than the file system takes."""

    def __init__(self, folder: str, file_system: str, options: str, more: int = 0) -> None:
        have_own_mounts()
        self.file_system, self.options, self.folder = file_system, options, f"{folder}/mounted"
        self.disk = RecordingDisk(f"{folder}/disk", (SIZES[file_system] + more) * MIB)
        self.device = ""
        os.makedirs(self.folder, exist_ok=True)

    def __enter__(self) -> Mounted:
        self.device = self.disk.attach()
        return self

    def __exit__(self, kind: type[BaseException] | None, value: BaseException | None,
                 trace: TracebackType | None) -> None:
        subprocess.run(["umount", "-l", self.folder], stdout=subprocess.DEVNULL, stderr=subprocess.DEVNULL, check=False)
        if self.device:
            subprocess.run(["losetup", "-d", self.device], check=False)
        self.disk.close()

    def drop_memory(self) -> None:
        """The kernel drops what it has in memory of the device."""
        with open(self.device, "rb") as device:
            fcntl.ioctl(device, BLKFLSBUF, 0)

    def make(self) -> None:
        """Makes a new file system on the disk."""
        self.drop_memory()
        command(*MAKE[self.file_system], self.device)

    def mount(self) -> None:
        self.drop_memory()
        command("mount", "-t", self.file_system, "-o", self.options, self.device, self.folder)

    def unmount(self) -> None:
        """Unmounts as soon as nobody has a file open there."""
        for _ in range(50):
            with suppress(OSError):
                return command("umount", self.folder)
            time.sleep(0.05)
        return command("umount", self.folder)


class WritesEarly:
    """While it is open the kernel writes the files of an index at random moments, without a flush, as a machine does
    that is short of memory."""

    def __init__(self, path: str, chance: random.Random) -> None:
        self.path, self.chance, self.is_over = path, chance, threading.Event()
        self.thread = threading.Thread(target=self.run, daemon=True)

    def __enter__(self) -> WritesEarly:
        self.thread.start()
        return self

    def __exit__(self, kind: type[BaseException] | None, value: BaseException | None,
                 trace: TracebackType | None) -> None:
        self.is_over.set()
        self.thread.join()

    def run(self) -> None:
        while not self.is_over.wait(self.chance.uniform(0, 0.004)):
            for end in ("", "-wal"):
                with suppress(OSError):
                    opened = os.open(f"{self.path}{end}", os.O_RDONLY)
                    try:
                        os.posix_fadvise(opened, 0, 0, os.POSIX_FADV_DONTNEED)
                    finally:
                        os.close(opened)
