"""The history of an index: who changed what, when and from where, by nginx's logs of changes or by records."""
from __future__ import annotations

from dataclasses import dataclass
from typing import Any, Dict, Iterator, List, Sequence

from indexctl.backups import opened
from indexctl.logs import Line, lines_in
from indexctl.names import DIGEST
from indexctl.replays import is_unanswered, logged_row
from indexctl.units import iso
from package_index.names import normal, read_file_name

# of the digest of a token, so many digits are in a log and in a record
DIGITS = 8
# what a record has beside the row that was asked for
OF_A_RECORD = ("at", "caller", "index", "again", "for")
# what a change has a place of its own for, or nobody needs to see
SHOWN_APART = ("do", "name", "file", "token_sha256")
MADE, REFUSED, UNKNOWN = "made", "refused", "unknown"


@dataclass(frozen=True)
class Change:
    """A change that was asked for, and whether it was made, which is unknown if nginx had no answer. `who` has each
    user who had a token of these digits, and is empty if no log and no backup says whose it was."""
    at: str
    who: List[str]
    caller: str
    address: str
    reader: str
    do: str
    name: str
    file: str
    more: Dict[str, Any]
    became: str
    status: int
    id: str


class Callers:
    """The users by the first digits of the digests of their tokens. Two users may share them."""

    def __init__(self, backups: Sequence[str]) -> None:
        self.users: Dict[str, List[str]] = {}
        for path in backups:
            with opened(path) as database:
                for user, digest in database.execute("SELECT user, token FROM users ORDER BY user"):
                    self.learn(digest.hex(), user)

    def learn(self, digest: str, user: str) -> None:
        its = self.users.setdefault(digest[:DIGITS], [])
        if user not in its:
            its.append(user)

    def learn_from(self, row: Dict[str, Any]) -> None:
        """Of an accepted request that gave a user a token."""
        digest, user = str(row.get("token_sha256")).lower(), row.get("user")
        if row.get("do") in ("add_user", "set_token") and isinstance(user, str) and DIGEST.fullmatch(digest):
            self.learn(digest, user)

    def who(self, caller: str) -> List[str]:
        return list(self.users.get(caller, ()))


def text_in(found: Dict[str, Any], key: str) -> str:
    """The text at a key; an empty one if another value is there, as in what anybody sent."""
    value = found.get(key)
    return value if isinstance(value, str) else ""


def name_of(row: Dict[str, Any]) -> str:
    """The project that a row is about, in its normal form, or an empty text."""
    spelled = read_file_name(text_in(row, "file"))
    return normal(text_in(row, "name")) or (spelled.project if spelled else "")


def became_of(found: Dict[str, Any]) -> str:
    """Whether a line's change was made. A record has those alone that were."""
    if found.get("status", 200) in (200, 201):
        return MADE
    return UNKNOWN if is_unanswered(found) else REFUSED


def change_of(line: Line, callers: Callers) -> Change:
    """What a line says. A token that it gives to somebody is known from here on."""
    found = line.found
    is_logged = "status" in found
    row = logged_row(found) if is_logged else {key: it for key, it in found.items() if key not in OF_A_RECORD}
    became, caller = became_of(found), text_in(found, "caller")
    if became == MADE:
        callers.learn_from(row)
    status = found.get("status")
    return Change(iso(line.moment), callers.who(caller), caller, text_in(found, "from"), text_in(found, "user"),
                  text_in(row, "do"), name_of(row), text_in(row, "file"),
                  {key: it for key, it in row.items() if key not in SHOWN_APART}, became,
                  status if isinstance(status, int) else 0, text_in(found, "id"))


def changes_in(paths: Sequence[str], backups: Sequence[str]) -> Iterator[Change]:
    """The changes of these logs and records, by their moments."""
    callers = Callers(backups)
    for line in lines_in(paths):
        yield change_of(line, callers)
