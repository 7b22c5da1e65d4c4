"""The rules of index-verify on tables by SQLite, without the program."""
import hashlib
import sqlite3
import types
from contextlib import closing

import pytest
from support.planted import catches
from support.programs import program_of
from support.unit import ends, raises

VERIFY = program_of("index-verify")
BODY = b"a body"
DIGEST = hashlib.sha256(BODY).digest()
LAST_SECOND = 253_402_300_799
# as docs/reference/TABLES.md has them
TABLES = """
CREATE TABLE users (user TEXT NOT NULL PRIMARY KEY, office INTEGER NOT NULL, token BLOB NOT NULL UNIQUE);
CREATE TABLE names (name TEXT NOT NULL PRIMARY KEY, state INTEGER NOT NULL, shown TEXT NOT NULL, quota INTEGER NOT NULL,
    charged INTEGER NOT NULL, live INTEGER NOT NULL, last_upload INTEGER);
CREATE TABLE owners (name TEXT NOT NULL REFERENCES names (name), user TEXT NOT NULL REFERENCES users (user));
CREATE TABLE files (file TEXT NOT NULL PRIMARY KEY, name TEXT NOT NULL, rel TEXT NOT NULL, digest BLOB NOT NULL,
    size INTEGER NOT NULL, requires TEXT NOT NULL, live INTEGER NOT NULL);
CREATE TABLE blobs (file TEXT NOT NULL PRIMARY KEY REFERENCES files (file), body BLOB NOT NULL);
CREATE TABLE yanks (name TEXT NOT NULL REFERENCES names (name), rel TEXT NOT NULL, reason TEXT NOT NULL);
CREATE TABLE cases (name TEXT NOT NULL PRIMARY KEY REFERENCES names (name), kind INTEGER NOT NULL,
    candidate TEXT NOT NULL REFERENCES users (user), opened INTEGER NOT NULL, attempts INTEGER NOT NULL,
    sent INTEGER NOT NULL, profile INTEGER NOT NULL, author INTEGER NOT NULL, pages INTEGER NOT NULL,
    first_sent INTEGER);
CREATE TABLE bans (file TEXT NOT NULL PRIMARY KEY REFERENCES files (file));
"""
ROWS = (("users", "ann", 0, bytes(32)), ("users", "office", 1, bytes(31) + b"1"),
        ("names", "frob-nest", 1, "Frob.Nest", 9, 6, 1, None), ("names", "evil", 2, "", 0, 0, 0, None),
        ("owners", "frob-nest", "ann"),
        ("files", "Frob.Nest-1.0RC1.tar.gz", "frob-nest", "1.0rc1", DIGEST, 6, "", 1),
        ("files", "frob-nest-2.tar.gz", "frob-nest", "2", DIGEST, 6, "", 0),
        ("blobs", "Frob.Nest-1.0RC1.tar.gz", BODY), ("yanks", "frob-nest", "1.0rc1", "broken"),
        ("cases", "frob-nest", 2, "ann", LAST_SECOND, 1000, 1000, 1, 0, 1, LAST_SECOND),
        ("bans", "frob-nest-2.tar.gz"))


@pytest.fixture
def tables():
    with closing(sqlite3.connect(":memory:")) as database:
        database.executescript(TABLES)
        for table, *row in ROWS:
            database.execute(f"INSERT INTO {table} VALUES ({', '.join('?' * len(row))})", row)
        yield database


def test_sound_tables_have_no_fault(tables):
    assert VERIFY.fault_by_sqlite(tables) is None


@pytest.mark.parametrize("change", [
    "UPDATE cases SET first_sent = 0", "UPDATE cases SET sent = 0, first_sent = NULL", "UPDATE cases SET kind = 1",
    "UPDATE cases SET attempts = 0, sent = 0, first_sent = NULL, opened = 0",
    "UPDATE names SET shown = 'x' WHERE state = 2"])
def test_what_is_at_a_bound_is_no_fault(tables, change):
    tables.execute(change)
    assert VERIFY.fault_by_sqlite(tables) is None


@pytest.mark.parametrize("change, said", [
    ("UPDATE users SET office = 2 WHERE user = 'ann'", "neither of the office nor not: ann"),
    ("UPDATE users SET office = -1 WHERE user = 'ann'", "neither of the office nor not: ann"),
    ("UPDATE users SET token = zeroblob(31) WHERE user = 'ann'", "a token's digest that is not 32 bytes: ann"),
    ("UPDATE users SET token = zeroblob(33) WHERE user = 'ann'", "a token's digest that is not 32 bytes: ann"),
    ("UPDATE names SET shown = 'Frob.Nets' WHERE state = 1", "shown as another one: frob-nest"),
    ("UPDATE names SET shown = '' WHERE state = 1", "shown as another one: frob-nest"),
    ("UPDATE names SET live = 2 WHERE state = 1", "wrong number of files: frob-nest"),
    ("DELETE FROM owners", "a held name without an owner: frob-nest"),
    ("INSERT INTO owners VALUES ('evil', 'ann')", "a name that is not held: evil"),
    ("INSERT INTO yanks VALUES ('evil', '1.0', '')", "a name that is not held: evil"),
    ("INSERT INTO cases SELECT 'evil', 2, candidate, opened, attempts, sent, profile, author, pages, first_sent "
     "FROM cases", "a name that is not held: evil"),
    ("UPDATE files SET name = 'evil' WHERE live = 0", "project that its name doesn't spell: frob-nest-2.tar.gz"),
    ("UPDATE files SET rel = '1.0' WHERE live = 1", "release that its name doesn't spell: Frob.Nest-1.0RC1.tar.gz"),
    ("UPDATE files SET live = 2 WHERE live = 0", "neither deleted nor not: frob-nest-2.tar.gz"),
    ("UPDATE files SET digest = zeroblob(31) WHERE live = 0", "a digest that is not 32 bytes: frob-nest-2.tar.gz"),
    ("DELETE FROM blobs", "a file whose bytes are missing: Frob.Nest-1.0RC1.tar.gz"),
    ("INSERT INTO blobs VALUES ('frob-nest-2.tar.gz', 'a body')",
     "bytes of a file that is deleted: frob-nest-2.tar.gz"),
    ("UPDATE blobs SET body = CAST('a BODY' AS BLOB)", "don't have their digest and size: Frob.Nest-1.0RC1.tar.gz"),
    ("UPDATE files SET size = 7 WHERE live = 1", "don't have their digest and size: Frob.Nest-1.0RC1.tar.gz"),
    ("UPDATE yanks SET rel = '1.0RC1'", "not a release: frob-nest 1.0RC1"),
    ("UPDATE yanks SET rel = '1-0'", "not a release: frob-nest 1-0"),
    ("DELETE FROM bans; INSERT INTO bans VALUES ('Frob.Nest-1.0RC1.tar.gz')",
     "a banned file that is not deleted: Frob.Nest-1.0RC1.tar.gz"),
    *((f"UPDATE cases SET {it}", "a case with a flag or a number out of range: frob-nest") for it in (
        "kind = 0", "kind = 3", "profile = 2", "author = 2", "pages = -1", "attempts = 1001", "sent = 1001",
        "attempts = -1, sent = -1", "opened = -1", f"opened = {LAST_SECOND + 1}", "first_sent = -1",
        f"first_sent = {LAST_SECOND + 1}", "first_sent = NULL", "sent = 0"))])
def test_a_wrong_row_is_found(tables, change, said):
    tables.executescript(change)
    assert VERIFY.fault_by_sqlite(tables).endswith(said)


def test_a_row_that_breaks_a_foreign_key_alone_is_found(tables):
    tables.execute("UPDATE owners SET user = 'nobody'")
    assert VERIFY.fault_by_sqlite(tables) == "foreign_key_check: [('owners', 1, 'users', 0)]"


def test_what_sqlite_finds_is_told(tables):
    """A view of the database, of which SQLite's own check finds something."""
    said = {"PRAGMA integrity_check": [("row 1 missing",)] * 9}
    stands = types.SimpleNamespace(execute=lambda text: types.SimpleNamespace(fetchall=lambda: said[text]))
    assert VERIFY.fault_by_sqlite(stands) == f"integrity_check: {said['PRAGMA integrity_check'][:3]}"


@pytest.mark.parametrize("function, text, value", [
    ("normal", "Frob._Nest", "frob-nest"), ("normal", "-x", None), ("version", "1.0RC1", "1.0rc1"),
    ("version", "1-0", None),
    ("project", "Frob_Nest-1.0RC1-py3-none-any.whl", "frob-nest"), ("project", "x.zip", None),
    ("release", "Frob_Nest-1.0RC1-py3-none-any.whl", "1.0rc1"), ("release", "x.zip", None),
    ("sha256", BODY, DIGEST)])
def test_what_rules_call(function, text, value):
    assert VERIFY.FUNCTIONS[function](text) == value


def stand_ins(folder, monkeypatch, log=0, index=0):
    """Programs that end with these statuses, and the file of what they were asked."""
    for name, status in (("index-log", log), ("index", index)):
        (folder / name).write_text(f'#!/bin/sh\necho {name} "$@" >> {folder}/asked\n'
                                   f"echo ' {name}'\necho ' said ' >&2\nexit {status}\n")
        (folder / name).chmod(0o755)
    monkeypatch.setattr(VERIFY, "HERE", str(folder))
    monkeypatch.setattr(VERIFY, "PROGRAM", str(folder / "index"))
    return folder / "asked"


def test_both_programs_look_at_a_copy(tmp_path, monkeypatch):
    asked = stand_ins(tmp_path, monkeypatch)
    assert VERIFY.fault_by_program(str(tmp_path / "x.db")) is None
    assert asked.read_text() == f"index-log {tmp_path}/x.db\nindex check --db {tmp_path}/x.db\n"


@pytest.mark.parametrize("log, index, said", [(3, 0, "index-log ended with status 3: index-log\n said"),
                                              (0, 1, "index check ended with status 1: index\n said")])
def test_what_a_program_finds_is_told(tmp_path, monkeypatch, log, index, said):
    asked = stand_ins(tmp_path, monkeypatch, log, index)
    assert VERIFY.fault_by_program("x.db") == said
    assert len(asked.read_text().splitlines()) == (1 if log else 2)


@pytest.mark.parametrize("length, said", [(0, None), (4096, None), (4097, "index check: the log was not brought into "
                                                                         "the copy")])
def test_a_log_that_stays_is_told(tmp_path, monkeypatch, length, said):
    stand_ins(tmp_path, monkeypatch)
    (tmp_path / "x.db-wal").write_bytes(bytes(length))
    assert VERIFY.fault_by_program(str(tmp_path / "x.db")) == said


def test_a_copy_is_read_alone_and_what_is_no_database_is_told(tmp_path, monkeypatch):
    monkeypatch.setattr(VERIFY, "fault_by_program", lambda path: None)
    with closing(sqlite3.connect(tmp_path / "x.db")) as database:
        database.executescript(TABLES)
    assert VERIFY.fault(str(tmp_path / "x.db")) is None
    (tmp_path / "x.db").write_bytes(b"no database " * 99)
    assert VERIFY.fault(str(tmp_path / "x.db")).startswith("sqlite3: ")
    monkeypatch.setattr(VERIFY, "fault_by_program", lambda path: f"wrong {path}")
    assert VERIFY.fault("y.db") == "wrong y.db"


@catches("server/bin/index-verify", "{quote(os.fsencode(path))}", "{path}")
@pytest.mark.parametrize("name", ["a%20b.db", "a?b.db", "a#b.db", "a b.db"])
def test_a_copy_may_have_any_name(tmp_path, monkeypatch, name):
    """SQLite reads the path of an address: of `a%20b.db` it would read `a b.db`."""
    monkeypatch.setattr(VERIFY, "fault_by_program", lambda path: None)
    with closing(sqlite3.connect(tmp_path / name)) as database:
        database.executescript(TABLES)
    assert VERIFY.fault(str(tmp_path / name)) is None


def test_how_it_ends(tmp_path, monkeypatch, capsys):
    (tmp_path / "x.db").touch()
    for found, told in ((None, (0, "")), ("wrong", (1, f"index-verify: {tmp_path}/x.db: wrong\n"))):
        monkeypatch.setattr(VERIFY, "fault", lambda path, found=found: found)
        assert ends(VERIFY, monkeypatch, capsys, tmp_path / "x.db")[::2] == told
    monkeypatch.setattr(VERIFY, "fault", raises(OSError("a bad block")))
    told = f"index-verify: {tmp_path}/x.db: a bad block\n"
    assert ends(VERIFY, monkeypatch, capsys, tmp_path / "x.db")[::2] == (1, told)
    assert ends(VERIFY, monkeypatch, capsys, tmp_path / "y")[::2] == (1, f"index-verify: {tmp_path}/y: no such file\n")
    for words, status in (([], 2), (["a", "b"], 2), (["-x"], 2), (["-h"], 0), (["--help"], 0)):
        assert ends(VERIFY, monkeypatch, capsys, *words) == (status, VERIFY.__doc__ + "\n", "")
