"""Databases of an index by SQLite alone, with the bytes of their files in their rows or in a volume beside them."""
from __future__ import annotations

import hashlib
import os
import re
import sqlite3
import struct
from contextlib import closing
from pathlib import Path

# as the index makes them; tests/server/test_unit_volume.py compares
TABLES = [" ".join(it.split()) for it in """
CREATE TABLE meta (id INTEGER PRIMARY KEY, kind TEXT NOT NULL, version INTEGER NOT NULL) STRICT;
CREATE TABLE users (user TEXT NOT NULL PRIMARY KEY, office INTEGER NOT NULL, token BLOB NOT NULL UNIQUE) STRICT;
CREATE TABLE names (name TEXT NOT NULL PRIMARY KEY, state INTEGER NOT NULL, shown TEXT NOT NULL, quota INTEGER NOT
NULL, charged INTEGER NOT NULL, live INTEGER NOT NULL, last_upload INTEGER, CHECK (charged BETWEEN 0 AND quota))
STRICT;
CREATE TABLE owners (name TEXT NOT NULL REFERENCES names (name) ON DELETE CASCADE, user TEXT NOT NULL REFERENCES users
(user), PRIMARY KEY (name, user)) STRICT;
CREATE TABLE files (file TEXT NOT NULL PRIMARY KEY, name TEXT NOT NULL, rel TEXT NOT NULL, digest BLOB NOT NULL, size
INTEGER NOT NULL, requires TEXT NOT NULL, live INTEGER NOT NULL, UNIQUE (name, file)) STRICT;
CREATE TABLE blobs (file TEXT NOT NULL PRIMARY KEY REFERENCES files (file), body BLOB NOT NULL) STRICT;
CREATE TABLE yanks (name TEXT NOT NULL REFERENCES names (name) ON DELETE CASCADE, rel TEXT NOT NULL, reason TEXT NOT
NULL, PRIMARY KEY (name, rel)) STRICT;
CREATE TABLE cases (name TEXT NOT NULL PRIMARY KEY REFERENCES names (name) ON DELETE CASCADE, kind INTEGER NOT NULL,
candidate TEXT NOT NULL REFERENCES users (user), contact TEXT NOT NULL, work TEXT NOT NULL, why TEXT NOT NULL, opened
INTEGER NOT NULL, attempts INTEGER NOT NULL, sent INTEGER NOT NULL, profile INTEGER NOT NULL, author INTEGER NOT NULL,
pages INTEGER NOT NULL, first_sent INTEGER) STRICT;
CREATE TABLE bans (file TEXT NOT NULL PRIMARY KEY REFERENCES files (file)) STRICT
""".split(";")]
DELETED, BANNED = "frob-0.1.tar.gz", "frob-0.2.tar.gz"
ROWS = (("users", "ann", 0, bytes(32)), ("users", "office", 1, bytes(31) + b"1"),
        ("names", "frob", 1, "Frob", 9_000_000, 0, 0, 7), ("names", "evil", 2, "", 0, 0, 0, None),
        ("owners", "frob", "ann"), ("yanks", "frob", "1.0", "broken"),
        ("cases", "frob", 2, "ann", "mail", "work", "why", 5, 1, 1, 1, 0, 1, 6),
        *(("files", it, "frob", it[5:8], hashlib.sha256(it.encode()).digest(), 9, "", 0) for it in (DELETED, BANNED)),
        ("bans", BANNED))


def opened(path: str) -> sqlite3.Connection:
    """A database that is not waited for: no test cuts the power."""
    tables = sqlite3.connect(path)
    tables.execute("PRAGMA synchronous = OFF")
    return tables


def digest_of(body: bytes) -> bytes:
    return hashlib.sha256(body).digest()


def make_database(path: str, files: dict[str, bytes] | None = None, version: int = 2) -> str:
    """A new database with these files. Of version 3 there is a volume beside it."""
    with closing(opened(path)) as made, made:
        for text in TABLES:
            made.execute(text)
        made.execute("INSERT INTO meta VALUES (1, 'python-index', ?)", (version,))
        for table, *row in ROWS:
            made.execute(f"INSERT INTO {table} VALUES ({', '.join('?' * len(row))})", row)
    if version == 3:
        Path(f"{path}-volume").touch()
    add_files(path, files or {})
    return path


def make_pair(path: str, files: dict[str, bytes] | None = None) -> str:
    return make_database(path, files, 3)


def stored(path: str, version: int, body: bytes) -> bytes:
    """What a row has for these bytes, which are at the end of the volume then if there is one."""
    if version == 2:
        return body
    with open(f"{path}-volume", "ab") as volume:
        at = volume.seek(0, os.SEEK_END)
        volume.write(body)
    return struct.pack(">QQ", at, len(body))


def add_files(path: str, files: dict[str, bytes]) -> None:
    """Has a database these files more."""
    with closing(opened(path)) as tables, tables:
        version, = tables.execute("SELECT version FROM meta").fetchone()
        for file, body in files.items():
            release = file[5:].replace(".tar.gz", "")
            tables.execute("INSERT INTO files VALUES (?, 'frob', ?, ?, ?, '', 1)",
                           (file, release, digest_of(body), len(body)))
            tables.execute("INSERT INTO blobs VALUES (?, ?)", (file, stored(path, version, body)))
        tables.execute("UPDATE names SET live = live + ?, charged = charged + ? WHERE name = 'frob'",
                       (len(files), sum(map(len, files.values()))))


def add_file(path: str, file: str, body: bytes) -> None:
    add_files(path, {file: body})


def delete_file(path: str, file: str) -> None:
    with closing(opened(path)) as tables, tables:
        tables.execute("DELETE FROM blobs WHERE file = ?", (file,))
        tables.execute("UPDATE files SET live = 0 WHERE file = ?", (file,))
        tables.execute("UPDATE names SET live = live - 1 WHERE name = 'frob'")


def places_of(path: str) -> dict[str, tuple[int, int]]:
    with closing(sqlite3.connect(path)) as tables:
        return {file: struct.unpack(">QQ", body) for file, body in tables.execute("SELECT file, body FROM blobs")}


def files_of(path: str) -> dict[str, bytes]:
    """The bytes of each file of a database, from its volume if it has one."""
    with closing(sqlite3.connect(path)) as tables:
        version, = tables.execute("SELECT version FROM meta").fetchone()
        rows = dict(tables.execute("SELECT file, body FROM blobs"))
    if version == 2:
        return rows
    whole = Path(f"{path}-volume").read_bytes()
    return {file: whole[at:at + size] for file, (at, size) in ((it, struct.unpack(">QQ", rows[it])) for it in rows)}


def rows_of(path: str) -> dict[str, list[tuple[object, ...]]]:
    """All rows of a database, but for the bytes of files and the version."""
    names = [re.match(r"CREATE TABLE (\w+)", it)[1] for it in TABLES]
    with closing(sqlite3.connect(path)) as tables:
        return {it: sorted(tables.execute(f"SELECT * FROM {it}"), key=repr) for it in names if it not in
                ("blobs", "meta")}


def spoil(path: str, at: int, size: int = 1) -> None:
    """Has a file other bytes at a place."""
    with open(path, "r+b") as file:
        file.seek(at)
        old = file.read(size)
        file.seek(at)
        file.write(bytes(255 - it for it in old))
