"""index-migrate there and back, and stopped at each step. A stand-in is in the place of the program."""
import os
import sqlite3
import struct
from contextlib import closing

import pytest
from support.library import database, exchange, migrated
from support.library import ends as library_ends
from support.needed import want_command
from support.planted import catches
from support.programs import program_of
from support.server.pairs import add_file, digest_of, files_of, make_database, rows_of, spoil
from support.server.stand_ins import stand_ins
from support.unit import ends, raises

MIGRATE = program_of("index-migrate")
Refused = library_ends.Refused
FILES = {"frob-1.0.tar.gz": b"one" * 100, "frob-1.1.tar.gz": b"", "frob-1.2.tar.gz": b"two" * 5000}
WAYS = {2: (3, "--volume"), 3: (2, "--one-file")}


@pytest.fixture(autouse=True)
def stand_in_for_the_program(tmp_path, monkeypatch):
    want_command("sqlite3", "sqlite3")
    stand_ins(f"{tmp_path}/bin", index="")
    monkeypatch.setenv("INDEX", f"{tmp_path}/bin/index")
    monkeypatch.setattr(MIGRATE, "ignore_signals", lambda: None)


@pytest.fixture
def made(tmp_path):
    """A function that makes a database of a version in a folder of its own."""
    def make(version, name="var", files=None):
        (tmp_path / name).mkdir()
        return make_database(f"{tmp_path}/{name}/index.db", FILES if files is None else files, version)
    return make


def version_of(db):
    with closing(sqlite3.connect(db)) as tables:
        return tables.execute("SELECT * FROM meta").fetchall()


def names_beside(db):
    return sorted(it for it in os.listdir(os.path.dirname(db)) if not it.startswith("before"))


def asides(db):
    folder = os.path.dirname(db)
    return [f"{folder}/{it}/index.db" for it in sorted(os.listdir(folder)) if it.startswith("before")]


@catches("server/bin/index-migrate", "        if is_own:", "        if not note:")
@pytest.mark.parametrize("version", [2, 3])
def test_all_rows_and_bytes_stay_and_the_old_files_are_aside(made, monkeypatch, capsys, version):
    db, (other, way) = made(version), WAYS[version]
    rows = rows_of(db)
    status, said, err = ends(MIGRATE, monkeypatch, capsys, way, db)
    aside, = asides(db)
    where = f"in {db}-volume" if other == 3 else f"in {db} itself"
    assert (status, said, err) == (
        0, f"the bytes of its files are {where}; what was there is in {os.path.dirname(aside)}\n", "")
    assert version_of(db) == [(1, "python-index", other)] and rows_of(db) == rows == rows_of(aside)
    assert files_of(db) == FILES == files_of(aside)
    assert names_beside(db) == ["index.db", "index.db-volume"][:other - 1]
    assert sorted(os.listdir(os.path.dirname(aside))) == ["index.db", "index.db-volume"][:version - 1]
    assert {os.stat(it).st_nlink for it in (db, aside)} == {1} and os.stat(db).st_mode & 0o777 == 0o600
    with open(db, "rb") as file:
        assert file.read(20)[18:] == b"\2\2"


@pytest.mark.parametrize("version", [2, 3])
def test_a_second_time_nothing_is_done(made, monkeypatch, capsys, version):
    db = made(version)
    way = WAYS[5 - version][1]
    before = os.stat(db).st_ino
    status, said, _ = ends(MIGRATE, monkeypatch, capsys, way, db)
    assert status == 0 and said.endswith(" already\n") and os.stat(db).st_ino == before and not asides(db)


def summed_pages(db):
    """Whether each page of a database ends in its sum."""
    with open(db, "rb") as file:
        whole = file.read()
    size = int.from_bytes(whole[16:18], "big")
    pages = [whole[at:at + size] for at in range(0, len(whole), size)]
    return all(it[-8:] == struct.pack("<2I", *database.sum_of(False, (0, 0), it[:-8])) for it in pages)


@catches("server/lib/package_index/migrated.py", "sums = has_sums(db)", "sums = False")
@pytest.mark.parametrize("sums", [True, False])
@pytest.mark.parametrize("version", [2, 3])
def test_page_sums_stay(tmp_path, made, version, sums):
    db = made(version)
    if sums:
        migrated.begin(f"{tmp_path}/summed.db", True)
        with closing(sqlite3.connect(f"{tmp_path}/summed.db")) as tables, closing(sqlite3.connect(db)) as old, tables:
            for line in old.iterdump():
                if not line.startswith(("BEGIN", "COMMIT")):
                    tables.execute(line)
        migrated.finish(f"{tmp_path}/summed.db", True)
        os.rename(f"{tmp_path}/summed.db", db)
    assert summed_pages(db) == sums
    MIGRATE.move(db, version == 2)
    assert summed_pages(db) == sums and files_of(db) == FILES


def test_a_database_is_not_longer_than_a_new_one_with_its_rows(tmp_path, made):
    files = {f"frob-1.{at}.tar.gz": f"{at}".encode() * 500 for at in range(1500)}
    for version in (2, 3):
        db = made(version, f"of{version}", files)
        MIGRATE.move(db, version == 2)
        new = made(5 - version, f"new{version}", files)
        assert os.path.getsize(db) <= 1.1 * os.path.getsize(new) and files_of(db) == files


def test_what_a_log_alone_has_is_moved_too(made):
    db = made(2)
    with closing(sqlite3.connect(db)) as tables:
        tables.execute("PRAGMA journal_mode = WAL")
        tables.execute("PRAGMA wal_autocheckpoint = 0")
        with tables:
            tables.execute("INSERT INTO files VALUES ('frob-3.tar.gz', 'frob', '3', ?, 4, '', 1)",
                           (digest_of(b"more"),))
            tables.execute("INSERT INTO blobs VALUES ('frob-3.tar.gz', x'6d6f7265')")
            tables.execute("UPDATE names SET live = live + 1")
            tables.execute("UPDATE names SET live = 0 WHERE state = 2")
        os.link(f"{db}-wal", f"{db}.kept")
    os.rename(f"{db}.kept", f"{db}-wal")
    MIGRATE.move(db, True)
    assert files_of(db) == {**FILES, "frob-3.tar.gz": b"more"} and names_beside(db) == ["index.db", "index.db-volume"]
    aside, = asides(db)
    assert os.path.getsize(f"{aside}-wal") > 0


@catches("server/lib/package_index/migrated.py", "if hashlib.sha256(body).digest() != digest:",
         'if hashlib.sha256(body).digest() == b"":')
@pytest.mark.parametrize("version", [2, 3])
def test_a_file_with_other_bytes_is_refused_and_nothing_is_changed(made, monkeypatch, capsys, version):
    db, (_, way) = made(version), WAYS[version]
    if version == 3:
        spoil(f"{db}-volume", 0)
    else:
        with closing(sqlite3.connect(db)) as tables, tables:
            tables.execute("UPDATE blobs SET body = zeroblob(300) WHERE file = 'frob-1.0.tar.gz'")
    before = names_beside(db), os.stat(db).st_ino
    status, _, err = ends(MIGRATE, monkeypatch, capsys, way, db)
    assert status == 1 and "frob-1.0.tar.gz has other bytes than its digest says" in err
    assert (names_beside(db), os.stat(db).st_ino) == before and not asides(db)


@catches("server/bin/index-migrate", 'run(f"{HERE}/index-verify", made)', "pass")
@pytest.mark.parametrize("version", [2, 3])
def test_what_was_made_is_tested_before_it_is_in_place(made, monkeypatch, capsys, version):
    db, (_, way) = made(version), WAYS[version]
    with closing(sqlite3.connect(db)) as tables, tables:
        tables.execute("UPDATE names SET live = 9 WHERE state = 1")
    status, _, err = ends(MIGRATE, monkeypatch, capsys, way, db)
    assert status == 1 and "a wrong number of files: frob" in err and not asides(db)
    assert names_beside(db) == ["index.db", "index.db-volume"][:version - 1]


@catches("server/lib/package_index/migrated.py", "if files[0] != files[1]:", "if not files:")
def test_a_row_of_bytes_without_a_file_is_not_left_out(made):
    db = made(2)
    with closing(sqlite3.connect(db)) as tables, tables:
        tables.execute("INSERT INTO blobs VALUES ('none.tar.gz', x'00')")
    with pytest.raises(Refused, match="has the bytes of 4 files, and 3 could be read"):
        MIGRATE.move(db, True)
    assert not asides(db)


def test_an_index_that_is_open_is_refused(made, monkeypatch):
    monkeypatch.setattr(database.fcntl, "lockf", lambda *_: (_ for _ in ()).throw(OSError()))
    db = made(2)
    with pytest.raises(Refused, match="another program still has it open; stop that first"):
        MIGRATE.move(db, True)
    assert names_beside(db) == ["index.db"]


@catches("server/bin/index-migrate", "if state(db) != before:", "if not before:")
def test_a_database_that_was_written_meanwhile_is_not_exchanged(made, monkeypatch):
    db, put = made(2), MIGRATE.put_beside

    def put_beside(*words):
        put(*words)
        add_file(db, "frob-4.tar.gz", b"late")

    monkeypatch.setattr(MIGRATE, "put_beside", put_beside)
    with pytest.raises(Refused, match="index.db was written meanwhile: stop the index, and run this again"):
        MIGRATE.move(db, True)
    assert names_beside(db) == ["index.db"] and len(files_of(db)) == 4


@pytest.mark.parametrize("version", [1, 4])
def test_a_database_of_another_version_is_refused(made, version):
    db = made(2)
    with closing(sqlite3.connect(db)) as tables, tables:
        tables.execute(f"UPDATE meta SET version = {version}")
    with pytest.raises(Refused, match=f"one of version {version}: a start of the index brings it to 2"):
        MIGRATE.move(db, True)


@catches("server/bin/index-migrate", "(0 if is_volume else found[0])", "found[0]", case="2-0")
@catches("server/bin/index-migrate", "(0 if is_volume else found[0])", "0", case="3-15300")
@pytest.mark.parametrize("version, more", [(2, 0), (3, 15300)])
def test_room_is_wanted_for_all_bytes_once(made, monkeypatch, version, more):
    db, asked = made(version), []

    def want_room(folder, written):
        asked.append((folder, written))
        raise Refused("no room")

    monkeypatch.setattr(MIGRATE, "want_room", want_room)
    with pytest.raises(Refused, match="no room"):
        MIGRATE.move(db, version == 2)
    assert asked == [(os.path.dirname(db), os.path.getsize(db) + more)]
    assert names_beside(db) == ["index.db", "index.db-volume"][:version - 1]


@catches("server/bin/index-migrate", "        shutil.rmtree(beside, ignore_errors=True)", "        pass", case="2")
@pytest.mark.parametrize("version", [2, 3])
def test_a_disk_that_is_full_meanwhile_changes_nothing(made, monkeypatch, capsys, version):
    db, (_, way) = made(version), WAYS[version]
    monkeypatch.setattr(migrated, "finish", raises(OSError(28, "No space left on device")))
    status, _, err = ends(MIGRATE, monkeypatch, capsys, way, db)
    assert (status, err) == (1, "index-migrate: [Errno 28] No space left on device\n") and not asides(db)
    assert names_beside(db) == ["index.db", "index.db-volume"][:version - 1] and files_of(db) == FILES


def test_it_holds_the_lock_of_backup_and_restore(made):
    db = made(2)
    with exchange.alone(os.path.dirname(db), "x"):
        with pytest.raises(Refused, match=f"another {exchange.AT_WORK} is at work there"):
            MIGRATE.move(db, True)


class Killed(BaseException):
    """The program ended here, and tidied nothing up."""


CALLS = [(os, "link"), (os, "remove"), (os, "rename"), (os, "mkdir"), (os, "chmod"), (migrated, "begin"),
         (migrated, "write_tables"), (migrated, "finish"), (MIGRATE, "run"), (MIGRATE, "sync"),
         (MIGRATE, "forget_notes")]


@pytest.mark.slow
@pytest.mark.parametrize("version", [2, 3])
def test_killed_at_each_step_the_same_command_goes_on(tmp_path, made, monkeypatch, version):
    seen = []
    monkeypatch.setattr(MIGRATE, "run", lambda *_: "")
    for step in range(1, 60):
        db, left = made(version, f"{step}"), [step]
        with monkeypatch.context() as killed:
            for module, name in CALLS:
                def call(*words, real=getattr(module, name), **more):
                    left[0] -= 1
                    if left[0] == 0:
                        raise Killed
                    return real(*words, **more)

                killed.setattr(module, name, call)
            killed.setattr(MIGRATE.shutil, "rmtree", lambda *_, **__: None)
            try:
                MIGRATE.move(db, version == 2)
            except Killed:
                pass
        seen.append(version_of(db)[0][2] if os.path.exists(db) else None)
        MIGRATE.move(db, version == 2)
        assert version_of(db)[0][2] == 5 - version and files_of(db) == FILES, step
        assert names_beside(db) == ["index.db", "index.db-volume"][:4 - version], step
        aside, = asides(db)
        assert files_of(aside) == FILES and not os.path.exists(f"{os.path.dirname(aside)}/unfinished"), step
        if left[0] > 0:
            break
    assert [it for at, it in enumerate(seen) if it not in seen[:at]] == [version, None, 5 - version]


def test_the_words_of_a_migration(made, monkeypatch, capsys):
    db = made(2)
    for words in ([], [db], ["--volume"], ["--volume", "--one-file", db]):
        assert ends(MIGRATE, monkeypatch, capsys, *words)[0] == 2
    assert ends(MIGRATE, monkeypatch, capsys, "--volume", "/nowhere/index.db")[::2] == (
        1, "index-migrate: /nowhere: no such folder\n")
    assert ends(MIGRATE, monkeypatch, capsys, "--volume", f"{os.path.dirname(db)}/none.db")[0] == 1
