"""The files of a database that SQLite knows: their names, their locks and their sums; and how copies are named."""
from __future__ import annotations

import datetime
import fcntl
import os
import re
import struct
from typing import BinaryIO, Optional, Sequence, Tuple

from package_index.disk import is_there
from package_index.ends import Refused

# how the volume of a database is named, and the log that an opening of the volume leaves, without a byte
VOLUME, VOLUME_LOG = "-volume", "-volume-wal"
# the database, its log, what else SQLite may leave beside it, and the volume
ENDS = "", "-wal", "-shm", "-journal", VOLUME, VOLUME_LOG
# where SQLite's locks are: the bytes of a file from 1 GiB on
LOCKS = 0x40000000, 512
COPY = re.compile(r"index-(\d{8}T\d{6})Z\.db")


def size_of(db: str, ends: Sequence[str]) -> int:
    """The bytes of those files of a database that are there. An end that is named twice counts twice."""
    return sum(os.path.getsize(db + end) for end in ends if is_there(db + end))


def lock(database: BinaryIO, advice: str = "stop that first") -> None:
    """Locks a database as SQLite does to write, until the file is closed. Refuses if another program has it open."""
    try:
        fcntl.lockf(database, fcntl.LOCK_EX | fcntl.LOCK_NB, LOCKS[1], LOCKS[0])
    except OSError:
        raise Refused(f"{database.name}: another program still has it open; {advice}") from None


def sum_of(big: bool, start: Tuple[int, int], data: bytes) -> Tuple[int, int]:
    """SQLite's sum of a log, or of a page of a file with sums, going on from `start`."""
    first, second = start
    words = struct.unpack(f"{'>' if big else '<'}{len(data) // 4}I", data)
    for one, two in zip(words[::2], words[1::2]):
        first = first + one + second & 0xFFFFFFFF
        second = second + two + first & 0xFFFFFFFF
    return first, second


def copy_name(moment: datetime.datetime) -> str:
    """The name of a copy that was begun at this moment, without its end."""
    return f"index-{moment.astimezone(datetime.timezone.utc):%Y%m%dT%H%M%S}Z"


def moment_of(copy: str) -> Optional[datetime.datetime]:
    """When a copy was begun, by its name; None if it has another name, or one of a day that never is."""
    found = COPY.fullmatch(os.path.basename(copy))
    try:
        return datetime.datetime.strptime(f"{found[1]}+0000", "%Y%m%dT%H%M%S%z") if found else None
    except ValueError:
        return None


def begun_at(copy: str) -> datetime.datetime:
    """When a copy was begun, by its name, or else when it was written."""
    return moment_of(copy) or datetime.datetime.fromtimestamp(os.path.getmtime(copy), datetime.timezone.utc)
