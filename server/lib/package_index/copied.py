"""A database that is copied while its index serves.

`sqlite3 .backup` can't make this copy: the program that serves has the database locked. But its log, DB-wal, only
grows, until its changes are copied into DB; it then begins again, with another number in its header. So DB is copied
and then the log, and the two belong together if the header is the same before, between and after. If the copying into
DB had begun, the log still has all of it. What is cut off at its end is a change that was not answered yet."""
from __future__ import annotations

import os
import time
from typing import Optional, Union

from package_index.database import VOLUME
from package_index.disk import copy

TRIALS = 20
# what a copy may have beside it; of a volume that is a link
ENDS = "", "-wal", "-shm", VOLUME


def state(db: str) -> Union[bytes, int]:
    """What is the same as long as the log is not begun again: its header, or if there is none the time of the
    database."""
    try:
        with open(f"{db}-wal", "rb") as log:
            header = log.read(32)
    except FileNotFoundError:
        header = b""
    return header or os.stat(db).st_mtime_ns


def copied_whole(db: str, target: str) -> Optional[int]:
    """Copies the database and its log. Returns after how many trials, or None."""
    for trial in range(1, TRIALS + 1):
        removed(target)
        before = state(db)
        copy(db, target)
        between = state(db)
        if isinstance(between, bytes):
            copy(f"{db}-wal", f"{target}-wal")
        if before == between == state(db):
            return trial
        time.sleep(pause_after(trial))
    return None


def pause_after(trial: int) -> float:
    """The seconds before the next trial: the longer the more have failed, and 5 at most."""
    return min(5, 0.1 * trial)


def removed(path: str) -> None:
    for end in ENDS:
        if os.path.lexists(path + end):
            os.remove(path + end)
