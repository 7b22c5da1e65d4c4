"""What a backup has, of which the index gives no list: read from copies that index-backup makes, and nothing else."""
from __future__ import annotations

import os
import sqlite3
import subprocess
import sys
from contextlib import closing

import pytest
from support.indexctl.control import DAY, Control, assert_ends, filled, line, upload_line, user_lines
from support.old_version import make_old_version
from support.places import BIN
from support.planted import catches
from support.serving import Index

pytestmark = pytest.mark.xdist_group("inventory")
YEAR = 365 * DAY
NOW = 1_794_998_000
NAME = "index-20261118T103320Z.db"


def lines():
    yield from user_lines("ann", "bob")
    yield line(1, "office", "add_user", user="chief", office=True, token_sha256="a" * 64)
    for name in ("frob", "Old.One", "quiet", "spam"):
        yield line(1, "ann", "claim", name=name)
    yield line(1, "bob", "claim", name="bobs")
    yield line(2, "ann", "add_owner", name="spam", user="bob")
    yield line(2, "office", "prohibit", name="Evil_name")
    yield upload_line(NOW - YEAR, "ann", "old_one-1.0.tar.gz", 5)
    for file in ("frob-1.0.tar.gz", "frob-1.1.tar.gz", "spam-1.0.tar.gz", "bobs-1.tar.gz"):
        yield upload_line(NOW - YEAR + 1, "bob" if file.startswith("bobs") else "ann", file, 5)
    for file in ("frob-1.1.tar.gz", "bobs-1.tar.gz"):
        yield line(NOW - YEAR + 2, "office", "ban_file", file=file)


WANTED = {
    "users": [{"user": "ann", "office": False, "names": 4, "alone": 3},
              {"user": "bob", "office": False, "names": 2, "alone": 1},
              {"user": "chief", "office": True, "names": 0, "alone": 0},
              {"user": "office", "office": True, "names": 0, "alone": 0}],
    "prohibited": ["evil-name"],
    "banned": [{"file": "bobs-1.tar.gz", "name": "bobs"}, {"file": "frob-1.1.tar.gz", "name": "frob"}],
    "quiet": [{"name": "quiet", "owners": ["ann"], "last_upload": None},
              {"name": "old-one", "owners": ["ann"], "last_upload": NOW - YEAR}],
    "sole": [{"name": it, "owner": "bob" if it == "bobs" else "ann"} for it in ("bobs", "frob", "old-one", "quiet")]}


@pytest.fixture(scope="module")
def copy(program, shared_folder):
    """A backup of this name, by index-backup."""
    path = filled(program, f"{shared_folder}/index.db", lines())
    os.mkdir(f"{shared_folder}/copies")
    ended = subprocess.run([sys.executable, f"{BIN}/index-backup", path, f"{shared_folder}/copies"], timeout=60,
                           stdout=subprocess.PIPE, stderr=subprocess.STDOUT, text=True,
                           env={**os.environ, "INDEX": program})
    assert ended.returncode == 0, ended.stdout
    made = [it for it in os.listdir(f"{shared_folder}/copies") if it.endswith(".db")]
    os.rename(f"{shared_folder}/copies/{made[0]}", f"{shared_folder}/copies/{NAME}")
    return f"{shared_folder}/copies/{NAME}"


@pytest.fixture
def by(folder):
    """indexctl without an address and a token: a backup is all that it needs."""
    return Control(folder, None, INDEX_TOKEN=None)


@catches("indexctl/inventory.py", "users = [UserRow(user, office == 1,", "users = [UserRow(user, office == 2,",
         also=["test_the_lists_are_told_in_words"])
@catches("indexctl/inventory.py", "for name, its in owners.items() if len(its) == 1]",
         "for name, its in owners.items()]")
@catches("indexctl/inventory.py", "HELD, PROHIBITED = 1, 2", "HELD, PROHIBITED = 2, 1")
@catches("indexctl/inventory.py", "(HELD, at - YEAR))]", "(HELD, at - YEAR + 1))]")
@catches("indexctl/commands/inventory.py", "moment_of(args.backup))", "1_900_000_000 or moment_of(args.backup))",
         also=["test_a_backup_of_the_first_version_has_no_bans"])
def test_a_backup_lists_what_the_index_does_not(by, copy):
    found = by.rows("inventory", copy)
    assert (found.pop("backup"), found.pop("at")) == (copy, NOW)
    assert found == WANTED


@catches("indexctl/inventory.py", 'AND (last_upload IS NULL OR last_upload <= ?) "', 'AND (last_upload <= ?) "')
def test_the_lists_are_told_in_words(by, copy):
    ended = by.run("inventory", copy)
    assert_ends(ended, 0, "2026-11-18 10:33 UTC", "Users: 4", "Prohibited names: 1", "Banned files: 2",
                "Names without an upload for a year: 2", "Names with one owner: 4")
    rows = [it.split() for it in ended.stdout.splitlines()]
    assert ["chief", "office", "0", "0"] in rows and ["ann", "4", "3"] in rows
    assert ["quiet", "ann", "never"] in rows and ["old-one", "ann", "2025-11-18", "10:33", "UTC"] in rows


@catches("indexctl/backups.py", "yield database", "os.utime(path); yield database")
def test_reading_a_backup_leaves_no_trace(by, copy):
    folder = os.path.dirname(copy)
    with open(copy, "rb") as kept:
        before = kept.read(), sorted(os.listdir(folder)), os.stat(copy).st_mtime_ns
    os.chmod(copy, 0o400)
    by.rows("inventory", copy)
    with open(copy, "rb") as kept:
        assert before == (kept.read(), sorted(os.listdir(folder)), os.stat(copy).st_mtime_ns)


@catches("indexctl/inventory.py", '''AND name = 'bans'").fetchone():''', '''AND name = 'files'").fetchone():''')
def test_a_backup_of_the_first_version_has_no_bans(by, folder):
    make_old_version(f"{folder}/old.db")
    found = by.rows("inventory", f"{folder}/old.db")
    assert found["banned"] == [] and found["users"] and found["at"] == int(os.stat(f"{folder}/old.db").st_mtime)


@catches("indexctl/backups.py", 'if os.path.exists(f"{path}-wal"):', "if False:")
def test_the_database_of_an_index_that_serves_is_refused(by, program, folder):
    with Index(program, path=filled(program, f"{folder}/a b?#%41.db", lines())):
        ended = by.run("inventory", f"{folder}/a b?#%41.db")
    assert_ends(ended, 2, "is the database of an index", "Name a backup of it.")


@catches("indexctl/backups.py", "{Path(path).absolute().as_uri()}?mode", "file:{path}?mode")
def test_a_path_may_have_any_character(by, copy, folder):
    path = f"{folder}/a b?mode=rw#%41.db"
    os.link(copy, path)
    assert by.rows("inventory", path)["users"] == WANTED["users"]


def damaged(folder):
    """What is no backup, by what it is."""
    paths = {it: f"{folder}/{it}" for it in ("text", "empty", "other", "part", "folder")}
    os.mkdir(paths["folder"])
    with open(paths["text"], "w", encoding="ascii") as made:
        made.write("no database " * 999)
    open(paths["empty"], "wb").close()
    for name, rows in (("other", "'another kind'"), ("part", "'python-index'")):
        with closing(sqlite3.connect(paths[name])) as database:
            database.executescript(f"CREATE TABLE meta (id, kind, version); INSERT INTO meta VALUES (1, {rows}, 2)")
    return paths


@catches("indexctl/backups.py", "if found != (KIND,):", "if False:")
def test_what_is_no_backup_is_told_as_such(by, folder, looked):
    said = {"none": "can't be read: No such file", "folder": "can't be read: Is a directory",
            "text": "can't be read as a backup of an index: file is not a database",
            "empty": "can't be read as a backup of an index: no such table: meta",
            "other": "is not a backup of an index.",
            "part": "can't be read as a backup of an index: no such table: owners"}
    paths = {**damaged(folder), "none": f"{folder}/none"}
    for what, sentence in said.items():
        ended = by.run("inventory", paths[what])
        is_told = ended.returncode == 2 and sentence in ended.stdout and "Traceback" not in ended.stdout
        looked(is_told, what, ended.stdout)
    assert not os.path.exists(f"{folder}/none")
