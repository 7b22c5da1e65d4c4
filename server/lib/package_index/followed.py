"""A log that is read as it grows, and goes on where it was left: over a rotation, and over an end of the reader."""
from __future__ import annotations

import hashlib
import os
import re
import time
from typing import BinaryIO, Callable, Generator, Iterator, NamedTuple, Optional, Tuple, TypeVar

from package_index.changes import lines_of
from package_index.disk import put_whole
from package_index.log_place import rotated

Kind = TypeVar("Kind")
PAUSE = 0.2
# of what was read, the last bytes by which a log is known again
TAIL = 256
# no line of nginx is longer: what is, as after a loss of power, is passed over
LONGEST = 1 << 20
# how a line says that a change was refused, so that nothing is gone; no value has a quotation mark that stands alone
REFUSED = re.compile(rb'"status":\s*4\d\d[,}]')


class Place(NamedTuple):
    """Up to where a log was read: which file by its inode, how many bytes of it, and the digest of the last of these. A
    new log may get the inode of one that was compressed, and an emptied one keeps it: they have other bytes there."""
    inode: int
    read: int
    digest: str


def place_in(path: str, kind: Callable[..., Kind]) -> Optional[Kind]:
    """The place in a log, or in a list of another nginx, that was kept in a file; None if there is none, or none that
    can be read."""
    try:
        with open(path, encoding="ascii") as kept:
            *numbers, digest = kept.read().split()
        return kind(*map(int, numbers), digest)
    except (FileNotFoundError, ValueError, TypeError):
        return None


def keep_place(path: str, place: Tuple[object, ...]) -> None:
    put_whole(path, f"{' '.join(map(str, place))}\n")


def digest_at(log: BinaryIO, read: int) -> str:
    """The digest of the last bytes before this one."""
    size = min(read, TAIL)
    return hashlib.sha256(os.pread(log.fileno(), size, read - size)).hexdigest()


def place_of(log: BinaryIO) -> Place:
    return Place(os.fstat(log.fileno()).st_ino, log.tell(), digest_at(log, log.tell()))


def whole_lines(log: BinaryIO) -> Iterator[bytes]:
    """The lines from here on that have their ends; the place is behind the last of them. One that is longer than
    LONGEST is passed over."""
    is_long = False
    for line in iter(lambda: log.readline(LONGEST), b""):
        has_end = line.endswith(b"\n")
        if has_end and not is_long:
            yield line
        elif not has_end and len(line) < LONGEST:
            log.seek(-len(line), os.SEEK_CUR)
            return
        is_long = not has_end


def left_at(path: str, place: Optional[Place]) -> Optional[BinaryIO]:
    """The log of this place, which may be rotated away, open there; or a copy of it, if it was emptied since. None if
    there is none, or if nothing of it was read, by which it could be known."""
    if not place or not place.read:
        return None
    inode = place.inode
    for each in sorted(rotated(path), key=lambda it: os.stat(it).st_ino != inode):
        log = open(each, "rb")
        if digest_at(log, place.read) == place.digest:
            log.seek(place.read)
            return log
        log.close()
    return None


def is_followed_by(path: str, log: BinaryIO) -> bool:
    """Whether the log was rotated away and nginx writes into another one. Before that it may still write here."""
    try:
        newer = os.stat(path)
    except FileNotFoundError:
        return False
    return newer.st_ino != os.fstat(log.fileno()).st_ino and newer.st_size > 0


def lines_of_one(log: BinaryIO, path: str) -> Generator[Tuple[str, Optional[Place]], None, Optional[Place]]:
    """The lines of one log of this path until it was rotated away, each with the place behind it, but for those of
    changes that were refused. An empty line says that there is none now. Returns the last place if the log was emptied,
    as logrotate's copytruncate does."""
    is_last, place = False, place_of(log)
    while not is_last:
        is_last = is_followed_by(path, log)
        if digest_at(log, place.read) != place.digest:
            return place
        for line in whole_lines(log):
            if not REFUSED.search(line):
                place = place_of(log)
                yield line.decode("utf-8", "replace"), place
        place = place_of(log)
        yield "", place
        if not is_last:
            time.sleep(PAUSE)
    return None


def lines_until_gone(log: BinaryIO, path: str) -> Iterator[Tuple[str, Optional[Place]]]:
    """The same, and if the log was emptied, the lines that only a copy of it has."""
    copy = left_at(path, (yield from lines_of_one(log, path)))
    if copy:
        with copy:
            yield from ((line.decode("utf-8", "replace"), None) for line in whole_lines(copy))


def rotated_since(path: str, inode: int) -> Iterator[str]:
    """The lines of those that were rotated away after the log of this inode, or of all if it is not there."""
    paths = rotated(path)
    after = [at for at, each in enumerate(paths, 1) if os.stat(each).st_ino == inode]
    for each in paths[after[0] if after else 0:]:
        if each != os.path.realpath(path):
            yield from lines_of(each)


def lines_from(path: str, place: Optional[Place]) -> Iterator[Tuple[str, Optional[Place]]]:
    """The lines of a log from this place on, and for ever those that come, over its rotations. If the place is not
    there any more, all that is left of the log is read."""
    left, inode = left_at(path, place), 0
    if left:
        with left:
            inode = os.fstat(left.fileno()).st_ino
            yield from lines_until_gone(left, path)
    yield from ((line, None) for line in rotated_since(path, inode))
    while True:
        if os.path.exists(path):
            with open(path, "rb") as log:
                yield from lines_until_gone(log, path)
        else:
            yield "", None
            time.sleep(PAUSE)
