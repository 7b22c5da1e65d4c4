"""What index-punch takes out of a volume, and out of the copies of one."""
from __future__ import annotations

import os
import sqlite3
from contextlib import closing, contextmanager
from typing import Iterator, List, Sequence, Tuple

from package_index.carried import want_length
from package_index.copied import TRIALS, copied_whole, removed
from package_index.database import lock, size_of
from package_index.disk import is_there, sync, want_room
from package_index.ends import Refused, held
from package_index.free_ranges import Range, free_below
from package_index.holes import Punched, punch
from package_index.long_work import long_work
from package_index.volume import ALL, VERSION, Body, end_of, first_wrong, path_of_volume, place_of, tables_of, volume
from package_index.volume_copies import copies_in, databases_of, without_link

# the copy of a database that a run makes in its folder
MADE = "index.db"
PLACES = "SELECT body FROM blobs ORDER BY body"
LAST = f"{ALL} WHERE size > 0 ORDER BY body DESC LIMIT 1"
LOST = "SELECT file FROM files WHERE live = 1 AND file NOT IN (SELECT file FROM blobs) LIMIT 1"


def used_in(places: sqlite3.Connection) -> Iterator[Range]:
    """The ranges that rows have, in their order. Refuses a row whose place nobody can read."""
    for body, in places.execute(PLACES):
        place = place_of(body)
        if not place:
            raise Refused("a row has no place in a volume, so nobody knows which bytes are free: index-verify")
        yield place[0], sum(place)


def want_pair(tables: sqlite3.Connection, db: str, file: int) -> int:
    """Refuses tables that are not whole, or of which this is not the volume, by the last file. Returns where the last
    place ends."""
    version = tables.execute("SELECT version FROM meta WHERE id = 1").fetchone()
    if version != (VERSION,):
        raise Refused(f"{db}: its rows have no places in a volume")
    said = tables.execute("PRAGMA integrity_check(1)").fetchone()
    lost = tables.execute(LOST).fetchone()
    if said != ("ok",) or lost:
        raise Refused(f"{db} is not whole, so nobody knows which bytes are free: {(lost or said)[0]}")
    end = end_of(tables)
    want_length(file, end)
    for name, body, digest in tables.execute(LAST):
        place = place_of(body)
        if place and first_wrong(file, [Body(name, *place, digest)]):
            raise Refused(f"{db}: this is not its volume, or was damaged: {name} has other bytes there")
    return end


def copy_of(db: str, folder: str) -> str:
    """Copies a database while its index serves. What is in the copy stays also after a loss of power: a ban that the
    index has written and not yet answered would else be undone by one, and the bytes of that file be gone."""
    made, size = f"{folder}/{MADE}", size_of(db, ("", "-wal"))
    want_room(folder, size)
    with long_work(f"copying {db}", size, lambda: size_of(made, ("", "-wal"))):
        if not copied_whole(db, made):
            raise Refused(f"the log of {db} was begun again during each of {TRIALS} trials")
    for path in (db, f"{db}-wal"):
        if is_there(path):
            sync(path)
    return made


@contextmanager
def stopped(db: str) -> Iterator[None]:
    """Refuses if a program has the database open. None opens it meanwhile."""
    with open(db, "r+b") as database:
        lock(database)
        yield


def punch_volume(db: str, folder: str, is_stopped: bool) -> Tuple[Punched, int]:
    """Punches the volume of a database below the last place, or to its end if no program serves it. Each place is that
    of a row that was read, or of an upload since, and so above all these: it may have its bytes there already, and no
    row yet. Returns also how many bytes lie above."""
    path = path_of_volume(db)
    try:
        with volume(path, os.O_RDWR) as file:
            # before the database is read and closed, which gives up a lock on it: who starts then writes above
            length = os.fstat(file).st_size
            made = copy_of(db, folder)
            if not os.path.samestat(os.fstat(file), os.stat(path, follow_symlinks=False)):
                raise Refused(f"{path} was exchanged meanwhile")
            with tables_of(made) as tables:
                end = want_pair(tables, db, file)
                with long_work(f"punching {path}", end):
                    done = punch(file, free_below(length if is_stopped else end, used_in(tables)))
    finally:
        with held():
            removed(f"{folder}/{MADE}")
    return done, 0 if is_stopped else max(length - end, 0)


def places_of_all(databases: Sequence[str], file: int) -> sqlite3.Connection:
    """The places of several databases that belong to one copy of a volume, which sqlite3 keeps on the disk."""
    found = sqlite3.connect("", isolation_level=None)
    found.execute("PRAGMA journal_mode = OFF")
    found.execute("CREATE TABLE blobs (body BLOB PRIMARY KEY) WITHOUT ROWID")
    found.execute("BEGIN")
    for db in databases:
        with tables_of(db) as tables:
            want_pair(tables, db, file)
            found.executemany("INSERT OR IGNORE INTO blobs VALUES (?)", tables.execute(PLACES))
    return found


def punch_copies(folder: str) -> List[Punched]:
    """Punches each copy of a volume where no kept database has a place. What a killed backup left is no kept one."""
    lost = without_link(folder)
    if lost and copies_in(folder):
        raise Refused(f"{lost[0]}: no link says which copy of the volume it belongs to, so nothing is punched there")
    done = []
    for copy in copies_in(folder):
        databases = [it for it in databases_of(copy) if not it.endswith(".part")]
        if databases:
            with volume(copy, os.O_RDWR) as file, closing(places_of_all(databases, file)) as places:
                with long_work(f"punching {copy}", os.fstat(file).st_size):
                    done.append(punch(file, free_below(os.fstat(file).st_size, used_in(places))))
    return done
