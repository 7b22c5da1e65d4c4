"""The copies of a volume among the copies of its database. One serves all databases from which a link leads to it.

It is only added to, above the last place of these databases. A new one is begun if the volume is another one, as after
a restore or a migration, or if a file has other bytes in the copy; the old one stays as long as a database belongs to
it. What is kept is right whatever a note says, since each file was read in the copy to which its database belongs."""
from __future__ import annotations

import json
import os
from contextlib import suppress
from typing import List, NamedTuple, Optional

from package_index.carried import carry
from package_index.database import VOLUME
from package_index.disk import put_whole, sync, want_room
from package_index.ends import Refused
from package_index.volume import COPY, end_of, has_places, tables_of, volume

ADVICE = "make room, or keep fewer copies"
# after so long all of a copy is read again
WHOLE = 30 * 86400
NOTE = "-note"


class Note(NamedTuple):
    """By which number the file system knows the volume of a copy, 0 if no further database is to belong to it; and when
    all of the copy was last read."""
    inode: int
    read: float


def note_of(copy: str) -> Optional[Note]:
    """What is noted of a copy, or None if nothing can be read."""
    try:
        with open(copy + NOTE, encoding="utf-8") as kept:
            said = json.load(kept)
            return Note(int(said["inode"]), float(said["read"]))
    except (FileNotFoundError, ValueError, KeyError, TypeError):
        return None


def put_note(copy: str, note: Note) -> None:
    put_whole(copy + NOTE, json.dumps(note._asdict()))


def copies_in(folder: str) -> List[str]:
    """The copies of a volume in a folder, oldest first."""
    return [f"{folder}/{it}" for it in sorted(os.listdir(folder)) if COPY.fullmatch(it)]


def databases_of(copy: str) -> List[str]:
    """The databases that belong to a copy, oldest first."""
    folder, name = os.path.split(copy)
    links = [f"{folder}/{it}" for it in sorted(os.listdir(folder)) if it.endswith(VOLUME)]
    return [it[:-len(VOLUME)] for it in links if os.path.islink(it) and os.readlink(it) == name]


def put_link(db: str, copy: str) -> None:
    """Has a database belong to a copy."""
    with suppress(FileNotFoundError):
        os.remove(db + VOLUME)
    os.symlink(os.path.basename(copy), db + VOLUME)


def without_link(folder: str) -> List[str]:
    """The databases of a folder whose bytes are in a copy, and no link says in which, as after a move without links."""
    paths = [f"{folder}/{it}" for it in sorted(os.listdir(folder)) if it.endswith(".db")]
    return [it for it in paths if not os.path.lexists(it + VOLUME) and has_places(it)]


def remove_unused(folder: str) -> None:
    """Removes links of databases that are gone, notes that a run was writing when it ended, and the copies to which no
    link leads, with what stands beside them. No copy goes while nobody knows to which one a database belongs."""
    names = os.listdir(folder)
    for name in names:
        path = f"{folder}/{name}"
        is_alone = name.endswith(VOLUME) and os.path.islink(path) and name[:-len(VOLUME)] not in names
        if is_alone or name.endswith(f".volume{NOTE}.part"):
            os.remove(path)
    unused = [it for it in copies_in(folder) if not databases_of(it)]
    for copy in unused if unused and not without_link(folder) else ():
        for end in ("", NOTE, "-wal"):
            with suppress(FileNotFoundError):
                os.remove(copy + end)


def copy_of(folder: str, inode: int) -> Optional[str]:
    """The copy that is gone on with, for the volume of this number: its own, or one of which nothing is noted. Of that
    all is read."""
    notes = {it: note_of(it) for it in copies_in(folder)}
    own = [it for it, note in notes.items() if note and note.inode == inode]
    unknown = [it for it, note in notes.items() if note is None]
    fit = own or unknown
    return fit[-1] if fit else None


def begin(name: str, inode: int) -> str:
    """Begins a copy of the volume of this number, by a path without its end. No further database belongs to another
    one."""
    for copy in copies_in(os.path.dirname(name)):
        note = note_of(copy)
        if note is None or note.inode == inode:
            put_note(copy, Note(0, 0.0))
    made = f"{name}.volume"
    os.close(os.open(made, os.O_CREAT | os.O_EXCL | os.O_WRONLY, 0o600))
    put_note(made, Note(inode, 0.0))
    return made


def start_of(copy: str) -> int:
    """Up to where a copy is settled: the last end of a place of its databases."""
    ends = [0]
    for db in databases_of(copy):
        try:
            with tables_of(db) as tables:
                ends.append(end_of(tables))
        except Refused:
            # of one that can't be read nobody knows
            return os.path.getsize(copy)
    return max(ends)


def data_bytes(path: str, start: int, end: int) -> int:
    """How many bytes of a file lie between two offsets, at most: what was deleted and is a hole takes none."""
    return min(end - start, os.stat(path).st_blocks * 512)


def add(copy: str, source: str, part: str) -> int:
    """Gives a copy what the volume has more, up to the last place of a database. Returns how many bytes that may be."""
    start = start_of(copy)
    with tables_of(part) as tables:
        end = max(start, end_of(tables))
    added = data_bytes(source, start, end)
    want_room(os.path.dirname(copy), added, ADVICE)
    with volume(source) as whole, volume(copy, os.O_RDWR) as target:
        try:
            carry(whole, target, start, end)
        except OSError:
            os.ftruncate(target, start)
            raise
    sync(os.path.dirname(copy))
    return added


def last_read(copy: str, now: float) -> Optional[str]:
    """The database since which only new files are read in a copy: its last one; None if all are to be read."""
    note = note_of(copy)
    databases = databases_of(copy)
    if not databases or not note or not 0 <= now - note.read < WHOLE:
        return None
    return databases[-1]
