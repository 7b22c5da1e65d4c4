"""An index whose tables have places: the volume beside its database has the bytes of its files.

What is read here needs as much memory for a million files as for one: SQLite sorts places on the disk, and bytes are
read by the piece."""
from __future__ import annotations

import hashlib
import os
import re
import sqlite3
import stat
import struct
from contextlib import closing, contextmanager
from typing import Iterable, Iterator, NamedTuple, Optional, Tuple
from urllib.parse import quote

from package_index.database import VOLUME
from package_index.ends import Refused

# of tables with places
VERSION = 3
# a copy of a volume in a folder of copies, to which a link beside each database there leads that belongs to it
COPY = re.compile(r"index-\d{8}T\d{6}Z\.volume")
# where bytes are and how many, the highest byte of each number first
PLACE = struct.Struct(">QQ")
# above this a file has no end
LAST = (1 << 63) - 1
# how index-verify ends if all that is wrong is the bytes of a file
WRONG_BYTES = 3
PIECE = 1 << 20


class Body(NamedTuple):
    """A file, where its bytes are in the volume, and the digest that they have."""
    file: str
    at: int
    size: int
    digest: bytes

    @property
    def end(self) -> int:
        return self.at + self.size


def place_of(body: object) -> Optional[Tuple[int, int]]:
    """The place in a text; None if it is none, or of bytes that no file can have."""
    if not isinstance(body, bytes) or len(body) != PLACE.size:
        return None
    at, size = PLACE.unpack(body)
    return (at, size) if at + size <= LAST else None


def size_in(body: object) -> Optional[int]:
    """How many bytes a place has."""
    place = place_of(body)
    return place[1] if place else None


def address(path: str, how: str) -> str:
    """What SQLite opens a file by, whose name may have any signs."""
    return f"file:{quote(os.fsencode(os.path.abspath(path)))}?{how}"


def address_of(db: str) -> str:
    """By what SQLite reads a database that no program has open, with what its log alone has, and writes nothing."""
    has_log = os.path.exists(f"{db}-wal") and os.path.getsize(f"{db}-wal") > 0
    return address(db, "mode=ro" if has_log else "mode=ro&immutable=1")


@contextmanager
def tables_of(db: str) -> Iterator[sqlite3.Connection]:
    """The tables in such a database."""
    shared = f"{db}-shm"
    is_new = not os.path.exists(shared)
    try:
        with closing(sqlite3.connect(address_of(db), uri=True)) as tables:
            yield tables
    except sqlite3.Error as end:
        raise Refused(f"{db}: sqlite3: {end}") from None
    finally:
        # what it has in memory while there is a log
        if is_new and os.path.exists(shared):
            os.remove(shared)


def version_of(db: str) -> Optional[int]:
    """The version of the tables in a database, or None if it tells none."""
    try:
        with tables_of(db) as database:
            found = database.execute("SELECT version FROM meta WHERE id = 1").fetchone()
    except Refused:
        return None
    return found[0] if found else None


def has_places(db: str) -> bool:
    """Whether the bytes of the files of a database are in a volume."""
    return version_of(db) == VERSION


def path_of_volume(db: str) -> str:
    """Where the volume of a database is: beside it, or in a folder of copies where the link beside it leads. Refuses a
    link to anything else, and what is no file."""
    path = db + VOLUME
    try:
        if os.path.islink(path):
            name = os.readlink(path)
            if not COPY.fullmatch(name):
                raise Refused(f"{path}: a link to {name}, and not to a copy of a volume beside it: put the volume "
                              "itself there")
            path = os.path.join(os.path.dirname(path), name)
        if not stat.S_ISREG(os.lstat(path).st_mode):
            raise Refused(f"{path}: not a file")
    except FileNotFoundError:
        raise Refused(f"{path}: no such file, and the files of {db} are in it: put it there, or in a folder of copies "
                      "a link to the copy of it") from None
    return path


def opened(path: str, flags: int = os.O_RDONLY) -> int:
    """A volume by its own name, and none to which a link leads that was put there meanwhile."""
    return os.open(path, flags | os.O_NOFOLLOW | os.O_CLOEXEC, 0o600)


@contextmanager
def volume(path: str, flags: int = os.O_RDONLY) -> Iterator[int]:
    file = opened(path, flags)
    try:
        yield file
    finally:
        os.close(file)


def end_of(database: sqlite3.Connection) -> int:
    """Where the last place ends. No two have a byte in common, so it is that which begins last, and of those that begin
    there, the longest: the last one as a text too."""
    found = database.execute("SELECT body FROM blobs WHERE length(body) = ? ORDER BY body DESC LIMIT 1",
                             (PLACE.size,)).fetchone()
    place = place_of(found[0]) if found else None
    return sum(place) if place else 0


ALL = "SELECT file, body, digest FROM blobs JOIN files USING (file)"
NEW = f"""{ALL} WHERE NOT EXISTS (SELECT 1 FROM before.blobs AS old JOIN before.files AS its USING (file)
    WHERE old.file = blobs.file AND old.body = blobs.body AND its.digest = files.digest)"""


def bodies_in(database: sqlite3.Connection, before: Optional[str] = None) -> Iterator[Body]:
    """The files in the order of their places; those that another database has not, at this place and with this digest,
    if one is named. What is no place is passed over: index-verify finds it."""
    if before is not None:
        database.execute("ATTACH ? AS before", (address(before, "mode=ro&immutable=1"),))
    for file, body, digest in database.execute(f"{ALL if before is None else NEW} ORDER BY body"):
        place = place_of(body)
        if place:
            yield Body(file, *place, digest)


def pieces(file: int, at: int, end: int) -> Iterator[bytes]:
    """The bytes of a file from one offset to another. It ends before that where the file does."""
    while at < end:
        piece = os.pread(file, min(PIECE, end - at), at)
        if not piece:
            return
        yield piece
        at += len(piece)


def digest_at(file: int, body: Body) -> bytes:
    """The digest of what is at a place."""
    digest = hashlib.sha256()
    for piece in pieces(file, body.at, body.end):
        digest.update(piece)
    return digest.digest()


def first_wrong(file: int, bodies: Iterable[Body]) -> Optional[str]:
    """The first file of which other bytes are at its place, or fewer."""
    return next((it.file for it in bodies if digest_at(file, it) != it.digest), None)
