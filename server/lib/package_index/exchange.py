"""Exchanges a database for another one by steps of which each may be the last: a later run sees how far it came, and
undoes it if the other one is not in place."""
from __future__ import annotations

import fcntl
import os
import shutil
import time
from contextlib import ExitStack, contextmanager, suppress
from typing import Iterator, Optional

from package_index.database import ENDS, VOLUME
from package_index.disk import is_there, made_own, sync
from package_index.ends import Refused
from package_index.volume import has_places

# the file with the note
UNFINISHED = "unfinished"
# so many seconds apart a lock is tried again, and so long by a program that nobody watches
PAUSE, PATIENCE = 1, 3600
# who locks the folder of a database with a volume
AT_WORK = "index-backup, index-restore, index-migrate or index-punch"


def is_locked(opened: int) -> bool:
    """Locks a folder, and says whether that is done. Where its file system locks no folder, as NFS, it tells of
    nobody."""
    try:
        fcntl.flock(opened, fcntl.LOCK_EX | fcntl.LOCK_NB)
    except BlockingIOError:
        return False
    except OSError:
        pass
    return True


@contextmanager
def alone(folder: str, name: str, patience: float = 0) -> Iterator[None]:
    """Refuses if a program of this name is at work in the folder, and is so for as many seconds: each would take away
    what the other copied."""
    opened, until = os.open(folder, os.O_RDONLY | os.O_DIRECTORY), time.monotonic() + patience
    try:
        while not is_locked(opened):
            if time.monotonic() >= until:
                raise Refused(f"{folder}: another {name} is at work there")
            time.sleep(PAUSE)
        yield
    finally:
        os.close(opened)


@contextmanager
def alone_with_volume(db: str, folder: str) -> Iterator[None]:
    """Refuses if a program is at work for long that copies, exchanges or makes a database with a volume, or punches
    that. One without is copied in the folder that is locked already, and nothing more is wanted."""
    own = os.path.dirname(os.path.abspath(db))
    with ExitStack() as stack:
        if is_there(f"{db}{VOLUME}") and not os.path.samefile(own, folder):
            stack.enter_context(alone(own, AT_WORK, PATIENCE))
        yield


def free_stamp(folder: str) -> str:
    """This moment, or the first one by which no earlier exchange is named, as one by a clock that was ahead."""
    while True:
        stamp = time.strftime("%Y%m%dT%H%M%SZ", time.gmtime())
        if not is_there(f"{folder}/before-{stamp}"):
            return stamp
        time.sleep(0.1)


def exchange(db: str, made: str, aside: str, note: str) -> None:
    """Moves the database and its log aside and the copy into their place. The old files have both names before they
    lose one, and the database goes first: without it no program starts, and none takes a database without its log for a
    whole one. If it fails, they have their names again. The note stands beside them until somebody removes it.

    A volume goes with its database. That of the copy is there before the database is."""
    there = [end for end in ENDS if is_there(db + end)]
    at = made_own(aside)
    try:
        with open(f"{at}/{UNFINISHED}", "w") as kept:
            kept.write(note)
        sync(kept.name)
        for end in there:
            os.link(db + end, f"{at}/index.db{end}")
        sync(at)
        for end in there:
            os.remove(db + end)
        if is_there(f"{made}{VOLUME}"):
            os.rename(f"{made}{VOLUME}", f"{db}{VOLUME}")
        os.rename(made, db)
    except OSError:
        put_names_back(db, aside, made)
        raise


def remove_volume_of(made: str, db: str) -> None:
    """Removes the volume of a copy if it is in place already and the copy is not. (A volume that was there without a
    database stays: then that of the copy is still beside the copy, or it has none.)"""
    if not is_there(db) and is_there(made) and not is_there(f"{made}{VOLUME}") and has_places(made):
        with suppress(FileNotFoundError):
            os.remove(f"{db}{VOLUME}")


def put_names_back(db: str, aside: str, made: Optional[str] = None) -> bool:
    """Undoes an exchange whose copy is not in place, the database last. It does nothing if another one is in place."""
    if made:
        remove_volume_of(made, db)
    names = {db + end: f"{aside}/index.db{end}" for end in reversed(ENDS) if is_there(f"{aside}/index.db{end}")}
    if any(is_there(it) and not os.path.samefile(it, names[it]) for it in names):
        return False
    for it in names:
        if not is_there(it):
            os.link(names[it], it)
    with suppress(OSError):
        sync(os.path.dirname(db))
    # (a database with a second name would not be opened)
    shutil.rmtree(aside)
    return True
