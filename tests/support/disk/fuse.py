"""Serves the one file of a FUSE file system, `disk`, from shared memory, and notes each write and flush in a file.

    python3 fuse.py FOLDER MEMORY NOTES

FOLDER is where it is mounted. MEMORY and NOTES are descriptors: of the memory that the file is, and of the notes.
It is a process of its own, since the process that uses the disk would else wait for itself. It prints a line when the
file system is there, and ends when that is unmounted. The messages are those of the kernel's fuse(4)."""
from __future__ import annotations

import ctypes
import errno
import mmap
import os
import stat
import struct
import sys
from contextlib import suppress

NAME, NODE, MOST_BYTES = b"disk", 2, 1 << 20
# the messages of the kernel that are answered, by their numbers
LOOKUP, FORGET, GETATTR, SETATTR, OPEN, READ, WRITE, STATFS, RELEASE, FSYNC, CLOSE, INIT, OPENDIR = (
    1, 2, 3, 4, 14, 15, 16, 17, 18, 20, 25, 26, 27)
RELEASEDIR, INTERRUPT, DESTROY, FORGET_MANY = 29, 36, 38, 42
# of INIT: writes of more than a page, and how many pages a write may have
BIG_WRITES, MAX_PAGES = 1 << 5, 1 << 22
SECONDS = 3_600
# a note: 1 for a write and 0 for a flush, the place, and how many bytes follow
NOTE = struct.Struct("<BQI")


def attributes(node: int, size: int) -> bytes:
    mode, length = (stat.S_IFDIR | 0o700, 0) if node == 1 else (stat.S_IFREG | 0o600, size)
    return struct.pack("<6Q10I", node, length, length >> 9, 0, 0, 0, 0, 0, 0, mode, 1, 0, 0, 0, 4_096, 0)


def fixed_reply(kind: int) -> tuple[int, bytes]:
    """The reply to a message that asks nothing of the disk."""
    if kind == INIT:
        flags = BIG_WRITES | MAX_PAGES
        return 0, struct.pack("<IIIIHHIIHHI7I", 7, 31, 1 << 17, flags, 16, 12, MOST_BYTES, 1, MOST_BYTES >> 12, 0, 0,
                              *[0] * 7)
    if kind in (OPEN, OPENDIR):
        # 1: not by the kernel's own pages
        return 0, struct.pack("<QII", 0, 1 if kind == OPEN else 0, 0)
    if kind == STATFS:
        return 0, struct.pack("<5Q10I", 0, 0, 0, 0, 0, 4_096, 255, 4_096, *[0] * 7)
    if kind in (RELEASE, RELEASEDIR, CLOSE, DESTROY):
        return 0, b""
    return errno.ENOSYS, b""


class Server:
    def __init__(self, memory: int, notes: int) -> None:
        self.content, self.notes = mmap.mmap(memory, 0), notes

    def note(self, kind: int, at: int, data: bytes) -> None:
        os.write(self.notes, NOTE.pack(kind, at, len(data)) + data)

    def reply(self, kind: int, node: int, body: memoryview) -> tuple[int, bytes]:
        """The error number, and the bytes of the reply."""
        if kind == WRITE:
            _, at, size = struct.unpack_from("<QQI", body)
            data = bytes(body[40:40 + size])
            self.content[at:at + size] = data
            self.note(1, at, data)
            return 0, struct.pack("<II", size, 0)
        if kind == FSYNC:
            self.note(0, 0, b"")
            return 0, b""
        if kind == READ:
            _, at, size = struct.unpack_from("<QQI", body)
            return 0, self.content[at:at + size]
        if kind == LOOKUP:
            if bytes(body).rstrip(b"\0") != NAME:
                return errno.ENOENT, b""
            return 0, struct.pack("<QQQQII", NODE, 0, SECONDS, SECONDS, 0, 0) + attributes(NODE, len(self.content))
        if kind in (GETATTR, SETATTR):
            return 0, struct.pack("<QII", SECONDS, 0, 0) + attributes(node, len(self.content))
        return fixed_reply(kind)

    def serve(self, fuse: int) -> None:
        """Answers the kernel until the file system is unmounted."""
        while True:
            try:
                message = os.read(fuse, MOST_BYTES + 4_096)
            except OSError as end:
                if end.errno in (errno.ENOENT, errno.EINTR, errno.EAGAIN):
                    continue
                return
            length, kind, unique, node = struct.unpack_from("<IIQQ", message)
            if kind in (FORGET, FORGET_MANY, INTERRUPT):
                continue
            code, reply = self.reply(kind, node, memoryview(message)[40:length])
            with suppress(OSError):
                os.write(fuse, struct.pack("<IiQ", 16 + len(reply), -code, unique) + reply)
            if kind == DESTROY:
                return


def mount(folder: str) -> int:
    """Mounts the file system, and returns the descriptor by which the kernel asks."""
    fuse = os.open("/dev/fuse", os.O_RDWR)
    options = f"fd={fuse},rootmode=40000,user_id=0,group_id=0,max_read={MOST_BYTES}".encode()
    if ctypes.CDLL(None, use_errno=True).mount(b"disk", folder.encode(), b"fuse", 0, options):
        code = ctypes.get_errno()
        raise OSError(code, os.strerror(code), folder)
    return fuse


if __name__ == "__main__":
    server, at = Server(int(sys.argv[2]), int(sys.argv[3])), mount(sys.argv[1])
    print("mounted", flush=True)
    server.serve(at)
