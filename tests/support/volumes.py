"""The volume of an index: the bytes of its files, beside the database, which has their places."""
from __future__ import annotations

import os
import shutil
import sqlite3
import struct
from collections.abc import Iterable
from contextlib import closing

VOLUME = "-volume"
# the rooms whose indexes have a volume by the option --volume
WITH_VOLUME = "clients", "model", "program", "storage"
# of `blobs` in a database of version 3: where the bytes begin, and how many there are
PLACE = struct.Struct(">QQ")


def has_volume(path: str) -> bool:
    """Whether the database is of version 3."""
    with closing(sqlite3.connect(path)) as database:
        tables = database.execute("SELECT 1 FROM sqlite_master WHERE name = 'meta'").fetchall()
        return bool(tables) and database.execute("SELECT version FROM meta").fetchall() == [(3,)]


def copy_volume(path: str, to: str) -> None:
    """Copies the volume of a database, if it has one, to that of another."""
    if os.path.exists(path + VOLUME):
        shutil.copy(path + VOLUME, to + VOLUME)


def keep_copy(path: str, to: str) -> None:
    """Copies a database that no program has open as index-backup keeps it, at this path without its end: a link leads
    to the copy of its volume, if it has one."""
    shutil.copy(path, f"{to}.db")
    if os.path.exists(path + VOLUME):
        shutil.copy(path + VOLUME, f"{to}.volume")
        os.symlink(f"{os.path.basename(to)}.volume", f"{to}.db{VOLUME}")


def stored(path: str, bodies: Iterable[bytes]) -> list[bytes]:
    """What `blobs` of a database has for these bytes: themselves, or their places in its volume, to whose end they are
    added."""
    if not has_volume(path):
        return [*bodies]
    with open(path + VOLUME, "ab") as volume:
        return [added(volume, body) for body in bodies]


def added(volume, body: bytes) -> bytes:
    """The place of these bytes, which are written."""
    place = PLACE.pack(volume.tell(), len(body))
    volume.write(body)
    return place


def bodies_of(path: str, rows: Iterable[tuple[str, bytes]]) -> list[tuple[str, bytes]]:
    """Rows of `blobs` with the bytes that the volume of this database has at their places."""
    with open(path + VOLUME, "rb") as volume:
        return [(file, bytes_at(volume, *PLACE.unpack(place))) for file, place in rows]


def bytes_at(volume, at: int, size: int) -> bytes:
    volume.seek(at)
    return volume.read(size)
