"""A disk that remembers in which order it was written and flushed: the file of a FUSE file system (fuse.py).

A loop device lies on it, so that the kernel keeps a real file system there. It needs root, /dev/fuse and loop devices,
and no package."""
from __future__ import annotations

import mmap
import os
import subprocess
import sys
import tempfile
from dataclasses import dataclass
from typing import Union

from support.disk.fuse import NOTE

SERVER = f"{os.path.dirname(os.path.abspath(__file__))}/fuse.py"


@dataclass(frozen=True)
class Write:
    """Bytes that were written at a place of the disk."""
    at: int
    data: bytes


@dataclass(frozen=True)
class Flush:
    """All that was written before it is on the disk."""


Entry = Union[Write, Flush]


class RecordingDisk:
    """`content` is what the disk has."""

    def __init__(self, folder: str, size: int) -> None:
        self.folder = folder
        os.makedirs(folder, exist_ok=True)
        memory = os.memfd_create("disk")
        os.truncate(memory, size)
        self.content = mmap.mmap(memory, size)
        self.notes = tempfile.TemporaryFile(dir=os.path.dirname(folder), buffering=0)
        words = [sys.executable, "-S", SERVER, folder, str(memory), str(self.notes.fileno())]
        self.server = subprocess.Popen(words, stdin=subprocess.DEVNULL, stdout=subprocess.PIPE,
                                       pass_fds=(memory, self.notes.fileno()))
        os.close(memory)
        assert self.server.stdout
        if self.server.stdout.readline() != b"mounted\n":
            raise OSError(f"the disk is not there: its server ended with status {self.server.wait()}")

    def attach(self) -> str:
        """A loop device on the disk."""
        ended = subprocess.run(["losetup", "--show", "-f", f"{self.folder}/disk"], stdout=subprocess.PIPE, check=True,
                               text=True)
        return ended.stdout.strip()

    def close(self) -> None:
        subprocess.run(["umount", "-l", self.folder], check=False)
        try:
            self.server.wait(60)
        except subprocess.TimeoutExpired:
            self.server.kill()
            self.server.wait()
        assert self.server.stdout
        self.server.stdout.close()
        self.notes.close()
        self.content.close()

    def place(self) -> int:
        """How far the record goes now: a place for `entries`."""
        return os.fstat(self.notes.fileno()).st_size

    def entries(self, start: int) -> list[tuple[int, Entry]]:
        """What was done to the disk since a place of the record: each write and flush, with the place behind it."""
        data = os.pread(self.notes.fileno(), self.place() - start, start)
        made: list[tuple[int, Entry]] = []
        at = 0
        while at < len(data):
            kind, where, size = NOTE.unpack_from(data, at)
            at += NOTE.size + size
            made.append((start + at, Write(where, data[at - size:at]) if kind else Flush()))
        return made

    def put(self, write: Write) -> None:
        """Writes to the disk, and notes nothing."""
        self.content[write.at:write.at + len(write.data)] = write.data
