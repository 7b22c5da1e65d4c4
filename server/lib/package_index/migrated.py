"""A database that is written anew, with the bytes of its files in a volume or beside its rows."""
from __future__ import annotations

import hashlib
import os
import sqlite3
from contextlib import closing
from typing import BinaryIO, Iterator, Tuple

from package_index.commands import run
from package_index.database import VOLUME
from package_index.ends import Refused
from package_index.page_sums import FREE, SUM, VERSIONS, seal
from package_index.volume import PLACE, VERSION, address_of, bodies_in, path_of_volume, pieces, tables_of, volume

# of tables with the bytes in their rows
ONE_FILE = 2
# of a file; what is longer is no body, and is not read
LONGEST = 16 << 20
ROWS = "SELECT name, sql FROM old.sqlite_master WHERE type = 'table' ORDER BY rowid"


def has_sums(db: str) -> bool:
    """Whether the pages of a database end in sums."""
    with open(db, "rb") as file:
        return file.read(100)[FREE] == SUM


def begin(made: str, sums: bool) -> None:
    """An empty database, whose pages have room for sums if these are asked for."""
    room = [f".filectrl reserve_bytes {SUM}"] if sums else []
    run("sqlite3", made, *room, "VACUUM")


def finish(made: str, sums: bool) -> None:
    """Has a database open with a log, as the index opens one, and on the disk."""
    if sums:
        seal(made)
        return
    with open(made, "r+b") as file:
        file.seek(VERSIONS.start)
        file.write(b"\2\2")
        file.flush()
        os.fsync(file.fileno())


def checked(file: str, body: bytes, digest: bytes) -> bytes:
    if hashlib.sha256(body).digest() != digest:
        raise Refused(f"{file} has other bytes than its digest says: look for damage (index-verify)")
    return body


def bodies_of_rows(old: sqlite3.Connection) -> Iterator[Tuple[str, bytes]]:
    """The bytes of each file, which are in its row."""
    rows = old.execute("SELECT file, body, digest FROM blobs JOIN files USING (file) ORDER BY blobs.rowid")
    return ((file, checked(file, body, digest)) for file, body, digest in rows)


def bodies_of_volume(old: sqlite3.Connection, file: int) -> Iterator[Tuple[str, bytes]]:
    """The bytes of each file, which are in the volume."""
    for it in bodies_in(old):
        if it.size > LONGEST:
            raise Refused(f"{it.file} has a place of {it.size} bytes, which no file has")
        yield it.file, checked(it.file, b"".join(pieces(file, it.at, it.end)), it.digest)


def placed(bodies: Iterator[Tuple[str, bytes]], made: BinaryIO) -> Iterator[Tuple[str, bytes]]:
    """Writes the bytes of each file to the end of a volume. Gives its place."""
    at = 0
    for file, body in bodies:
        made.write(body)
        yield file, PLACE.pack(at, len(body))
        at += len(body)


def write_tables(db: str, made: str, version: int, bodies: Iterator[Tuple[str, bytes]]) -> None:
    """Writes the rows of a database into an empty one, with this for the bytes of each file."""
    with closing(sqlite3.connect(made, uri=True, isolation_level=None)) as new:
        new.execute("PRAGMA journal_mode = OFF")
        new.execute("PRAGMA synchronous = OFF")
        new.execute("ATTACH ? AS old", (address_of(db),))
        new.execute("BEGIN")
        for name, text in new.execute(ROWS).fetchall():
            new.execute(text)
            if name != "blobs":
                new.execute(f'INSERT INTO main."{name}" SELECT * FROM old."{name}" ORDER BY rowid')
        new.executemany("INSERT INTO main.blobs VALUES (?, ?)", bodies)
        new.execute("UPDATE main.meta SET version = ?", (version,))
        files = [new.execute(f"SELECT count(*) FROM {it}.blobs").fetchone()[0] for it in ("old", "main")]
        new.execute("COMMIT")
    if files[0] != files[1]:
        raise Refused(f"{db} has the bytes of {files[0]} files, and {files[1]} could be read")


def with_volume(db: str, made: str) -> None:
    """Makes a database with a volume beside it."""
    with tables_of(db) as old, open(made + VOLUME, "xb") as bytes_of_files:
        write_tables(db, made, VERSION, placed(bodies_of_rows(old), bytes_of_files))
        bytes_of_files.flush()
        os.fsync(bytes_of_files.fileno())


def one_file(db: str, made: str) -> None:
    """Makes a database that has the bytes in its rows."""
    with tables_of(db) as old, volume(path_of_volume(db)) as file:
        write_tables(db, made, ONE_FILE, bodies_of_volume(old, file))


def make(db: str, made: str, is_volume: bool) -> None:
    """Writes a database anew, with sums if it has them."""
    sums = has_sums(db)
    begin(made, sums)
    (with_volume if is_volume else one_file)(db, made)
    finish(made, sums)
