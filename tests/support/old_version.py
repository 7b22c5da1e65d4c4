"""A database of version 1, made by Python's sqlite3: the tables of today without `bans`, with rows of each table."""
import hashlib
import sqlite3
from contextlib import closing

# the texts that version 1 wrote into the schema, each on one line
TABLES = (
    "CREATE TABLE meta (id INTEGER PRIMARY KEY, kind TEXT NOT NULL, version INTEGER NOT NULL) STRICT;\n"
    "CREATE TABLE users (user TEXT NOT NULL PRIMARY KEY, office INTEGER NOT NULL, token BLOB NOT NULL UNIQUE) STRICT;\n"
    "CREATE TABLE names (name TEXT NOT NULL PRIMARY KEY, state INTEGER NOT NULL, shown TEXT NOT NULL, "
      "quota INTEGER NOT NULL, charged INTEGER NOT NULL, live INTEGER NOT NULL, last_upload INTEGER, "
      "CHECK (charged BETWEEN 0 AND quota)) STRICT;\n"
    "CREATE TABLE owners (name TEXT NOT NULL REFERENCES names (name) ON DELETE CASCADE, "
      "user TEXT NOT NULL REFERENCES users (user), PRIMARY KEY (name, user)) STRICT;\n"
    "CREATE TABLE files (file TEXT NOT NULL PRIMARY KEY, name TEXT NOT NULL, rel TEXT NOT NULL, "
      "digest BLOB NOT NULL, size INTEGER NOT NULL, requires TEXT NOT NULL, live INTEGER NOT NULL, "
      "UNIQUE (name, file)) STRICT;\n"
    "CREATE TABLE blobs (file TEXT NOT NULL PRIMARY KEY REFERENCES files (file), body BLOB NOT NULL) STRICT;\n"
    "CREATE TABLE yanks (name TEXT NOT NULL REFERENCES names (name) ON DELETE CASCADE, rel TEXT NOT NULL, "
      "reason TEXT NOT NULL, PRIMARY KEY (name, rel)) STRICT;\n"
    "CREATE TABLE cases (name TEXT NOT NULL PRIMARY KEY REFERENCES names (name) ON DELETE CASCADE, "
      "kind INTEGER NOT NULL, candidate TEXT NOT NULL REFERENCES users (user), contact TEXT NOT NULL, "
      "work TEXT NOT NULL, why TEXT NOT NULL, opened INTEGER NOT NULL, attempts INTEGER NOT NULL, "
      "sent INTEGER NOT NULL, profile INTEGER NOT NULL, author INTEGER NOT NULL, pages INTEGER NOT NULL, "
      "first_sent INTEGER) STRICT;\n"
)


def digest(text):
    return hashlib.sha256(text).digest()


def rows():
    """By table: `office` and ann, with the token `abc`; ann's project with a file, a deleted file, a yank and a
    case."""
    file = digest(b"abc")
    return {
        "meta": [(1, "python-index", 1)],
        "users": [("office", 1, digest(b"office")), ("ann", 0, digest(b"abc")), ("bob", 0, digest(b"hello"))],
        "names": [("frob", 1, "Frob", 1 << 30, 3, 1, 11), ("spam", 2, "", 0, 0, 0, None)],
        "owners": [("frob", "ann")],
        "files": [("frob-1.0.tar.gz", "frob", "1.0", file, 3, ">=3.8", 1),
                  ("frob-0.9.tar.gz", "frob", "0.9", file, 3, "", 0)],
        "blobs": [("frob-1.0.tar.gz", b"abc")],
        "yanks": [("frob", "1.0", "broken")],
        "cases": [("frob", 1, "bob", "mail", "fork", "used", 12, 1, 1, 1, 0, 0, 13)],
    }


def make_old_version(path):
    """Makes the database in this file, with nothing beside it."""
    with closing(sqlite3.connect(path)) as made:
        made.executescript(TABLES)
        for table, kept in rows().items():
            for row in kept:
                made.execute(f"INSERT INTO {table} VALUES ({', '.join('?' * len(row))})", row)
        made.commit()
    return path
