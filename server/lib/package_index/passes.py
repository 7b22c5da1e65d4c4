"""Which identity tokens were exchanged, and the passes that pipelines got for them: a pass uploads for some minutes.
Kept in a database on the disk, so that a token that was used is refused after a restart too."""
from __future__ import annotations

import hashlib
import secrets
import sqlite3
from contextlib import closing
from typing import List, Sequence

from package_index.replies import Refused

# how long a pass is good, in seconds; and how many are remembered at once, with the identity tokens
PASS_SECONDS, MOST_KEPT = 900, 100_000
PREFIX = "pipeline-"
TABLES = """CREATE TABLE IF NOT EXISTS used (id TEXT PRIMARY KEY, until INTEGER NOT NULL);
CREATE TABLE IF NOT EXISTS passes (digest TEXT PRIMARY KEY, publishers TEXT NOT NULL, until INTEGER NOT NULL);"""


def digest_of(text: str) -> str:
    return hashlib.sha256(text.encode()).hexdigest()


class Passes:
    """A database of passes, by their digests alone. sqlite3.Error if it can't be read or written."""

    def __init__(self, path: str) -> None:
        self.path = path
        with closing(self.opened()) as store:
            store.executescript(TABLES)

    def opened(self) -> sqlite3.Connection:
        return sqlite3.connect(self.path, timeout=10, isolation_level=None)

    def give(self, issuer: str, jti: str, until: int, publishers: Sequence[str], now: int) -> str:
        """A new pass for these publishers. Refuses an identity token that was exchanged before, which is remembered
        until then."""
        made = PREFIX + secrets.token_hex(32)
        with closing(self.opened()) as store:
            store.execute("BEGIN IMMEDIATE")
            store.execute("DELETE FROM used WHERE until < ?", (now,))
            store.execute("DELETE FROM passes WHERE until < ?", (now,))
            if store.execute("SELECT count(*) FROM used").fetchone()[0] >= MOST_KEPT:
                raise Refused(503, "too many pipelines have asked; ask again later", "too many identity tokens")
            at = store.execute("INSERT OR IGNORE INTO used VALUES (?, ?)", (digest_of(f"{issuer}\n{jti}"), until))
            if not at.rowcount:
                raise Refused(422, "this identity token was exchanged already, and is good for once; run the job again",
                              f"of {issuer}: again")
            store.execute("INSERT INTO passes VALUES (?, ?, ?)",
                          (digest_of(made), " ".join(publishers), now + PASS_SECONDS))
            store.execute("COMMIT")
        return made

    def publishers_of(self, password: str, now: int) -> List[str]:
        """For whom this pass is good now; nobody if it has ended, or is none."""
        with closing(self.opened()) as store:
            found = store.execute("SELECT publishers FROM passes WHERE digest = ? AND until >= ?",
                                  (digest_of(password), now)).fetchone()
        return str(found[0]).split() if found else []
