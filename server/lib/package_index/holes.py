"""Ranges of a file that are overwritten and given back to the file system, while others of it are read and written."""
from __future__ import annotations

import errno
import fcntl
import os
import struct
from itertools import islice
from typing import Iterable, Iterator, List, NamedTuple

from package_index.carried import data_from, write_at
from package_index.free_ranges import Range, whole_blocks
from package_index.volume import pieces

# linux/falloc.h: asks for what fallocate(2) does with PUNCH_HOLE and KEEP_SIZE, and needs no other program or library.
# A file system that has no holes, and a kernel before 5.6, answer one of these
UNRESERVE, RANGE = 0x4030582B, struct.Struct("hh4xqqiI16x")
NO_HOLES = errno.EOPNOTSUPP, errno.ENOTTY, errno.ENOSYS
# so answers a file system that writes each change elsewhere, and has no room for that
FULL = errno.ENOSPC, errno.EDQUOT
# so many ranges are overwritten before the disk is waited for
BATCH = 1000


class Punched(NamedTuple):
    """How many bytes were given back, and how many could not be, since the file system has no holes."""
    given: int
    kept: int


def data_in(file: int, free: Range) -> Iterator[Range]:
    """The parts of a range that are no hole."""
    at, end = free
    while at < end:
        found = data_from(file, at, end)
        if found is None:
            return
        at = min(os.lseek(file, found, os.SEEK_HOLE), end)
        yield found, at


def overwrite(file: int, free: Range) -> None:
    """Writes zeros over what is left of deleted files in a range, and over no hole and no zero. On a full disk some is
    left: to give blocks back makes room."""
    try:
        for begin, end in data_in(file, free):
            for piece in pieces(file, begin, end):
                if piece.strip(b"\0"):
                    write_at(file, bytes(len(piece)), begin)
                begin += len(piece)
    except OSError as no:
        if no.errno not in FULL:
            raise


def give_back(file: int, blocks: Range) -> bool:
    """Makes whole blocks a hole. Returns whether the file system can."""
    begin, end = blocks
    try:
        # from the start of the file, as SEEK_SET says
        fcntl.ioctl(file, UNRESERVE, RANGE.pack(0, os.SEEK_SET, begin, end - begin, 0, 0))
    except OSError as no:
        if no.errno in NO_HOLES:
            return False
        raise
    return True


def punch_some(file: int, some: List[Range]) -> Punched:
    """Overwrites these ranges, waits for the disk, and gives their whole blocks back."""
    given = kept = 0
    for free in some:
        overwrite(file, free)
    os.fdatasync(file)
    for free in some:
        blocks = whole_blocks(free)
        size = sum(end - begin for begin, end in data_in(file, blocks))
        if size and give_back(file, blocks):
            given += size
        else:
            kept += size
    return Punched(given, kept)


def punch(file: int, free: Iterable[Range]) -> Punched:
    """Gives ranges of a file back to its file system. Their bytes are overwritten before: a block that is given back
    keeps them on the disk until another file has it. (A file system that writes each change elsewhere, and a disk that
    does, have them longer.) What shares a block with other ranges is overwritten alone.

    Whoever reads or writes other ranges meanwhile sees nothing of it; the length stays. Stopped at any step, it has
    changed bytes of these ranges alone."""
    ranges, given, kept = iter(free), 0, 0
    while True:
        some = list(islice(ranges, BATCH))
        if not some:
            break
        done = punch_some(file, some)
        given, kept = given + done.given, kept + done.kept
    os.fsync(file)
    return Punched(given, kept)
