"""All that the index keeps (REQUESTS, 'Names' to 'Cases'), and as which rows it stands in the database
(TABLES)."""
from dataclasses import dataclass, field

from .names import bytes_of, sha256

QUOTA_OF_A_CLAIM = 1_073_741_824
KIND = {"continue": 1, "reuse": 2}


@dataclass
class User:
    office: bool
    digest: str


@dataclass
class Case:
    kind: str
    candidate: str
    contact: str
    work: str
    why: str
    opened: int
    attempts: int = 0
    sent: int = 0
    means: set = field(default_factory=set)
    first: int = None


@dataclass
class Held:
    """A name that is held, by its owners."""
    shown: str
    owners: set
    quota: int = QUOTA_OF_A_CLAIM
    latest: int = None
    yanks: dict = field(default_factory=dict)
    case: Case = None


@dataclass
class File:
    """A file that was accepted once. Its name is bound to its digest and size for good; a deleted one has no body."""
    project: str
    release: str
    digest: str
    size: int
    requires: str = ""
    body: bytes = None


class Tables:
    """All that the index keeps. A new index has one user, who is of the office."""

    def __init__(self, user="office", token="office"):
        self.users = {user: User(True, sha256(bytes_of(token)))}
        self.held, self.prohibited = {}, set()
        self.files, self.banned = {}, set()

    def bearer(self, digest):
        """The user whose token has this digest, or None."""
        return next((user for user, it in self.users.items() if it.digest == digest), None)

    def undeleted(self, project):
        """The undeleted files of a project, in the byte order of their names."""
        return {name: it for name, it in sorted(self.files.items()) if it.project == project and it.body is not None}

    def charge(self, project):
        return sum(file.size for file in self.undeleted(project).values())


def rows(tables):
    """By the name of a table, its rows in order, as SQLite returns them."""
    by_table = {
        "meta": [(1, "python-index", 2)],
        "users": [(user, int(it.office), bytes.fromhex(it.digest)) for user, it in tables.users.items()],
        "names": [held_row(tables, name, it) for name, it in tables.held.items()]
        + [(name, 2, "", 0, 0, 0, None) for name in tables.prohibited],
        "owners": [(name, user) for name, it in tables.held.items() for user in it.owners],
        "files": [file_row(name, it) for name, it in tables.files.items()],
        "blobs": [(name, it.body) for name, it in tables.files.items() if it.body is not None],
        "yanks": [(name, *yank) for name, it in tables.held.items() for yank in it.yanks.items()],
        "cases": [case_row(name, it.case) for name, it in tables.held.items() if it.case],
        "bans": [(name,) for name in tables.banned]}
    return {table: sorted(found, key=repr) for table, found in by_table.items()}


def held_row(tables, name, held):
    """`charged` and `live` are kept beside the files, and have to be their sum and their number."""
    return name, 1, held.shown, held.quota, tables.charge(name), len(tables.undeleted(name)), held.latest


def file_row(name, file):
    is_live = int(file.body is not None)
    return name, file.project, file.release, bytes.fromhex(file.digest), file.size, file.requires, is_live


def case_row(name, case):
    means = [int(it in case.means) for it in ("profile", "author", "pages")]
    return (name, KIND[case.kind], case.candidate, case.contact, case.work, case.why, case.opened,
            case.attempts, case.sent, *means, case.first)
