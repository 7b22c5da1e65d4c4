"""Bytes of a volume that are carried into a copy of it. What was deleted and is a hole stays one."""
from __future__ import annotations

import errno
import hashlib
import os
from collections import deque
from concurrent.futures import Future, ThreadPoolExecutor
from itertools import cycle
from typing import Deque, Iterable, Optional

from package_index.ends import Refused
from package_index.volume import Body, pieces

# how many files' digests are computed side by side: one takes three times as long as a disk that is copied
MOST_WORKERS = 4
# pieces that wait for their digest, so that each worker has half a file of the most bytes
MOST_WAITING = 32


def data_from(file: int, at: int, end: int) -> Optional[int]:
    """Where data begin at this offset or behind it; None if there are none before the end."""
    try:
        found = os.lseek(file, at, os.SEEK_DATA)
    except OSError as no:
        if no.errno == errno.ENXIO:
            return None
        raise
    return found if found < end else None


def write_at(file: int, piece: bytes, at: int) -> None:
    while piece:
        written = os.pwrite(file, piece, at)
        piece, at = piece[written:], at + written


def carry_range(source: int, target: int, at: int, end: int) -> None:
    """Writes what a file has between two offsets to the same ones of another, but for holes."""
    while at < end:
        found = data_from(source, at, end)
        if found is None:
            return
        at = min(os.lseek(source, found, os.SEEK_HOLE), end)
        for piece in pieces(source, found, at):
            write_at(target, piece, found)
            found += len(piece)


def want_length(source: int, end: int) -> None:
    length = os.fstat(source).st_size
    if length < end:
        raise Refused(f"the volume has {length} bytes, and the last place of the database ends at {end}")


def settle(target: int, start: int, end: int) -> None:
    """Gives a copy its length, also where that ends in a hole, and has it on the disk. Whoever reads what was added
    reads the disk then."""
    os.ftruncate(target, end)
    os.fsync(target)
    os.posix_fadvise(target, start, end - start, os.POSIX_FADV_DONTNEED)


def carry(source: int, target: int, start: int, end: int) -> None:
    """Gives a copy what the volume has from one offset to another. What it had above the first goes: a run that was
    killed left it, and no database has a place there."""
    want_length(source, end)
    os.ftruncate(target, start)
    carry_range(source, target, start, end)
    settle(target, start, end)


class Digests:
    """Digests that are computed while other pieces are read and written. The pieces of a file go to one worker, one
    after the other, and files go to the workers by turns."""

    def __init__(self) -> None:
        self.workers = [ThreadPoolExecutor(1) for _ in range(min(os.cpu_count() or 1, MOST_WORKERS))]
        self.turns = cycle(self.workers)
        self.waiting: Deque["Future[Optional[str]]"] = deque()
        self.wrong: Optional[str] = None

    def wait(self, most: int) -> None:
        while len(self.waiting) > most:
            self.wrong = self.waiting.popleft().result() or self.wrong

    def end(self) -> None:
        for worker in self.workers:
            worker.shutdown()

    def of(self, source: int, target: int, body: Body, at: int) -> None:
        """Takes a file's bytes, and writes those from an offset on."""
        digest, place, worker = hashlib.sha256(), body.at, next(self.turns)

        def add(piece: bytes) -> None:
            digest.update(piece)

        for piece in pieces(source, body.at, body.end):
            self.waiting.append(worker.submit(add, piece))
            write_at(target, piece[max(at - place, 0):], max(place, at))
            place += len(piece)
            self.wait(MOST_WAITING)
        self.waiting.append(worker.submit(lambda: None if digest.digest() == body.digest else body.file))


def carry_tested(source: int, target: int, bodies: Iterable[Body], end: int) -> Optional[str]:
    """Gives a new copy all up to an offset, and reads each byte once. Returns a file that has other bytes, if any."""
    want_length(source, end)
    digests, at = Digests(), 0
    try:
        for body in bodies:
            carry_range(source, target, at, body.at)
            digests.of(source, target, body, at)
            at = max(at, body.end)
        carry_range(source, target, at, end)
        digests.wait(0)
    finally:
        digests.end()
    settle(target, 0, end)
    return digests.wrong
