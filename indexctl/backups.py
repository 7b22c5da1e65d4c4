"""Backups of the database, which are read as they are: nothing is written, and no other file is made."""
from __future__ import annotations

import os
from contextlib import closing, contextmanager
from pathlib import Path
from typing import TYPE_CHECKING, Iterator

from indexctl.ends import WRONG, Stop
from indexctl.units import read_moment

if TYPE_CHECKING:
    from sqlite3 import Connection

KIND = "python-index"


@contextmanager
def opened(path: str) -> Iterator[Connection]:
    """The database of a backup. Stops if it is none, also while it is read."""
    try:
        # few commands read one, and some builds of Python lack it
        import sqlite3
    except ImportError as end:
        raise Stop(WRONG, "This Python has no sqlite3, which reads a backup. Use another one.") from end
    if os.path.exists(f"{path}-wal"):
        raise Stop(WRONG, f"{path} is the database of an index, since {path}-wal is there. Name a backup of it.")
    try:
        # (sqlite3 would make a file that is not there, and says little of one that it may not read)
        with open(path, "rb"):
            pass
        uri = f"{Path(path).absolute().as_uri()}?mode=ro&immutable=1"
        with closing(sqlite3.connect(uri, uri=True)) as database:
            found = database.execute("SELECT kind FROM meta").fetchone()
            if found != (KIND,):
                raise Stop(WRONG, f"{path} is not a backup of an index.")
            yield database
    except OSError as end:
        raise Stop(WRONG, f"{path} can't be read: {end.strerror}") from end
    except sqlite3.Error as end:
        raise Stop(WRONG, f"{path} can't be read as a backup of an index: {end}") from end


def moment_of(path: str) -> int:
    """When a backup was made: its name says it, or else its time."""
    try:
        return read_moment(os.path.basename(path))
    except Stop:
        return int(os.stat(path).st_mtime)
