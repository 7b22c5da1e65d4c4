"""What there is in a backup, of which no request of the index gives a list."""
from __future__ import annotations

from dataclasses import dataclass
from typing import TYPE_CHECKING, Dict, List, Optional

from indexctl.units import YEAR

if TYPE_CHECKING:
    from sqlite3 import Connection

HELD, PROHIBITED = 1, 2


@dataclass(frozen=True)
class UserRow:
    """A user, with how many names it owns, and how many of them alone."""
    user: str
    office: bool
    names: int
    alone: int


@dataclass(frozen=True)
class BanRow:
    """A banned file, and the project that its name spells."""
    file: str
    name: str


@dataclass(frozen=True)
class QuietRow:
    """A held name without an upload for a year. `last_upload` is None if there never was one."""
    name: str
    owners: List[str]
    last_upload: Optional[int]


@dataclass(frozen=True)
class SoleRow:
    """A name and its one owner."""
    name: str
    owner: str


@dataclass(frozen=True)
class Inventory:
    """What a backup of this moment has."""
    backup: str
    at: int
    users: List[UserRow]
    prohibited: List[str]
    banned: List[BanRow]
    quiet: List[QuietRow]
    sole: List[SoleRow]


def inventory_of(database: Connection, path: str, at: int) -> Inventory:
    """The lists of a backup that was made at this moment."""
    owners: Dict[str, List[str]] = {}
    for name, user in database.execute("SELECT name, user FROM owners ORDER BY name, user"):
        owners.setdefault(name, []).append(user)
    counts: Dict[str, List[int]] = {}
    for its in owners.values():
        for user in its:
            count = counts.setdefault(user, [0, 0])
            count[0], count[1] = count[0] + 1, count[1] + (len(its) == 1)
    users = [UserRow(user, office == 1, *counts.get(user, (0, 0)))
             for user, office in database.execute("SELECT user, office FROM users ORDER BY user")]
    prohibited = [name for name, in database.execute("SELECT name FROM names WHERE state = ? ORDER BY name",
                                                     (PROHIBITED,))]
    quiet = [QuietRow(name, owners.get(name, []), last) for name, last in database.execute(
        "SELECT name, last_upload FROM names WHERE state = ? AND (last_upload IS NULL OR last_upload <= ?) "
        "ORDER BY last_upload, name", (HELD, at - YEAR))]
    sole = [SoleRow(name, its[0]) for name, its in owners.items() if len(its) == 1]
    return Inventory(path, at, users, prohibited, banned_in(database), quiet, sole)


def banned_in(database: Connection) -> List[BanRow]:
    """The banned files. The first version of the tables has no bans."""
    if not database.execute("SELECT 1 FROM sqlite_master WHERE type = 'table' AND name = 'bans'").fetchone():
        return []
    found = database.execute("SELECT file, name FROM bans JOIN files USING (file) ORDER BY name, file")
    return [BanRow(file, name) for file, name in found]
