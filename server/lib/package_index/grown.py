"""What nginx's log of changes has got since it was read last: each line once, over rotations, and in little memory."""
from __future__ import annotations

import gzip
import hashlib
import os
import zlib
from contextlib import ExitStack
from typing import BinaryIO, Callable, List, Optional, cast

from package_index.followed import TAIL, Place, whole_lines
from package_index.log_place import rotated

# what one run reads at most: the next one goes on there
MOST = 256 << 20
TRIALS = 10


def file_of(path: str) -> BinaryIO:
    return cast(BinaryIO, gzip.open(path)) if path.endswith(".gz") else open(path, "rb")


def inode_of(log: BinaryIO) -> int:
    return os.fstat(log.fileno()).st_ino


def files_of(log: str, stack: ExitStack) -> List[BinaryIO]:
    """A log and those of it that were rotated away, the oldest first, all open as they stand at one moment: a rotation
    that comes later changes none of them."""
    for _ in range(TRIALS):
        with ExitStack() as trial:
            try:
                files = [trial.enter_context(file_of(it)) for it in rotated(log)]
                if [inode_of(it) for it in files] == [os.stat(it).st_ino for it in rotated(log)]:
                    stack.push(trial.pop_all())
                    return files
            except FileNotFoundError:
                pass
    raise OSError(f"{log} is rotated again and again")


def is_at(log: BinaryIO, place: Place) -> bool:
    """Whether a log has at this place what was read there."""
    size = min(place.read, TAIL)
    try:
        log.seek(place.read - size)
        return hashlib.sha256(log.read(size)).hexdigest() == place.digest
    except (EOFError, zlib.error, gzip.BadGzipFile):
        return False


def place_behind(log: BinaryIO) -> Place:
    """The place at which a log stands, also in one that is compressed."""
    read = log.tell()
    log.seek(read - min(read, TAIL))
    return Place(inode_of(log), read, hashlib.sha256(log.read(min(read, TAIL))).hexdigest())


def left_of(files: List[BinaryIO], place: Optional[Place], since: float) -> Optional[List[BinaryIO]]:
    """The files from the one of this place on; None if it is in none of them. One that was rotated away may have been
    compressed since, and another may have its inode."""
    if not place or not place.read:
        return None
    inode = place.inode
    for log in sorted(files, key=lambda it: inode_of(it) != inode):
        is_old = os.fstat(log.fileno()).st_mtime < since and inode_of(log) != inode
        if not is_old and is_at(log, place):
            return files[files.index(log):]
    return None


def read_on(log: str, place: Optional[Place], since: float, take: Callable[[bytes], None],
            forget: Callable[[], object]) -> Optional[Place]:
    """Has `take` take each line that came behind this place, MOST bytes of them at most. Returns the place behind the
    last one; None if there is none. If the place is gone, or there was none, all that was written into since this
    moment is read from its start, and `forget` is called before."""
    with ExitStack() as stack:
        files = files_of(log, stack)
        left = left_of(files, place, since)
        if left is None:
            forget()
            left, place = [it for it in files if os.fstat(it.fileno()).st_mtime >= since], None
        room = MOST
        for each in left:
            begin = each.seek(place.read if place and each is left[0] else 0)
            room = taken(each, take, room)
            place = place_behind(each) if each.tell() > begin else place
            if room <= 0:
                break
    return place


def taken(log: BinaryIO, take: Callable[[bytes], None], room: int) -> int:
    """Has the lines of one file taken, up to where it is damaged. Returns what is left of the room."""
    try:
        for line in whole_lines(log):
            take(line)
            room -= len(line)
            if room <= 0:
                break
    except (EOFError, zlib.error, gzip.BadGzipFile):
        pass
    return room
