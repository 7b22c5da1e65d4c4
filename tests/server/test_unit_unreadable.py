"""A disk that can't tell whether a file is there, or keep a name: no program takes the file for one that is not there,
and so leaves the log of a database behind, or puts a copy over a database."""
import errno
import os
import types

import pytest
from support.library import database, disk, exchange
from support.planted import catches
from support.programs import program_of
from support.unit import raises

RESTORE, RESEAL, LOG, FOLLOW = map(program_of, ("index-restore", "index-reseal", "index-log", "index-uncache-follow"))
HEAD = b"SQLite format 3\0"
NAMES = "index.db", "index.db-wal", "copy.db", "copy.db-wal"


@pytest.fixture
def unreadable(monkeypatch):
    """Has each look at a path fail from now on, as a sector of the disk that can't be read."""
    def fail(path):
        real = os.stat

        def stat(asked, *words, **more):
            if asked == path:
                raise OSError(errno.EIO, os.strerror(errno.EIO), path)
            return real(asked, *words, **more)

        monkeypatch.setattr(os, "stat", stat)
    return fail


@pytest.fixture
def files(tmp_path):
    """The paths of a database and its log, and of a copy with a log."""
    for name in NAMES:
        (tmp_path / name).write_bytes(HEAD + name.encode())
    return types.SimpleNamespace(folder=tmp_path, db=f"{tmp_path}/index.db", copy=f"{tmp_path}/copy.db")


def test_what_is_there_and_what_is_not(files, unreadable):
    assert disk.is_there(files.db) and disk.is_there(str(files.folder))
    assert not disk.is_there(f"{files.db}2") and not disk.is_there(f"{files.db}/below")
    unreadable(files.db)
    with pytest.raises(OSError, match="Input/output error"):
        disk.is_there(files.db)


@catches("server/lib/package_index/exchange.py", "there = [end for end in ENDS if is_there(db + end)]",
         "os.remove(db); there = [end for end in ENDS if is_there(db + end)]", case="-wal")
@catches("server/lib/package_index/disk.py", "    except (FileNotFoundError, NotADirectoryError):",
         "    except OSError:", case="-wal",
         also=["test_names_that_can_not_be_put_back_stay_where_they_are",
               "test_a_file_that_can_not_be_seen_is_not_passed_over[log_of_copy]",
               "test_a_file_that_can_not_be_seen_is_not_passed_over[reseal]",
               "test_a_file_of_a_cache_that_can_not_be_seen_is_still_to_be_taken_out"])
@pytest.mark.parametrize("end", ["", "-wal"])
def test_a_copy_is_put_beside_no_log_and_over_no_database_that_can_not_be_seen(files, unreadable, end):
    unreadable(files.db + end)
    with pytest.raises(OSError, match="Input/output error"):
        exchange.exchange(files.db, files.copy, f"{files.folder}/aside", "")
    for name in NAMES:
        assert (files.folder / name).read_bytes() == HEAD + name.encode()


def test_names_that_can_not_be_put_back_stay_where_they_are(files, unreadable):
    aside = files.folder / "aside"
    os.mkdir(aside)
    for end in ("", "-wal"):
        os.rename(files.db + end, f"{aside}/index.db{end}")
    unreadable(f"{aside}/index.db")
    with pytest.raises(OSError, match="Input/output error"):
        exchange.put_names_back(files.db, str(aside))
    assert (aside / "index.db").read_bytes() == HEAD + b"index.db"


@pytest.mark.parametrize("does, end", [
    (lambda it: RESTORE.put_beside(it.copy, f"{it.folder}/beside", os.lstat(it.folder)), "copy.db-wal"),
    (lambda it: RESTORE.want_complete(it.copy, it.db), "index.db-wal"),
    (lambda it: RESTORE.locked(it.db).__enter__(), "index.db"),
    (lambda it: RESTORE.Pypi(it.db).take_off(), "index.db"),
    (lambda it: RESEAL.copy_locked(it.db, f"{it.folder}/sealed.db"), "index.db-wal"),
    (lambda it: LOG.look_at(it.db, [], False), "index.db-wal"),
    (lambda it: database.size_of(it.db, ("", "-wal")), "index.db-wal")],
    ids=["log_of_copy", "is_complete", "lock", "pypi", "reseal", "log", "size"])
def test_a_file_that_can_not_be_seen_is_not_passed_over(files, unreadable, monkeypatch, does, end):
    for module in (RESTORE, RESEAL):
        monkeypatch.setattr(module, "run", lambda *_: "")
    monkeypatch.setattr(RESTORE, "copy_file", lambda source, target: os.link(source, target))
    unreadable(f"{files.folder}/{end}")
    with pytest.raises(OSError, match="Input/output error"):
        does(files)


def test_a_file_of_a_cache_that_can_not_be_seen_is_still_to_be_taken_out(tmp_path, unreadable):
    unreadable(FOLLOW.place_of_file(str(tmp_path), "frob", "frob-1.0.tar.gz"))
    with pytest.raises(OSError, match="Input/output error"):
        FOLLOW.take_out(["frob", "frob-1.0.tar.gz"], str(tmp_path))


@catches("server/lib/package_index/disk.py", "if end.errno != errno.EINVAL:", "if end:")
def test_a_file_system_that_syncs_no_folder_is_no_fault(tmp_path, monkeypatch):
    monkeypatch.setattr(os, "fsync", raises(OSError(errno.EINVAL, "Invalid argument")))
    disk.sync(str(tmp_path))


@catches("server/lib/package_index/disk.py", "        os.remove(path)", "        pass")
def test_a_name_that_the_disk_can_not_keep_is_none(files, monkeypatch):
    monkeypatch.setattr(os, "fsync", raises(OSError(errno.EIO, "Input/output error")))
    with pytest.raises(OSError, match="Input/output error"):
        disk.put_there(files.copy, f"{files.folder}/kept.db")
    assert sorted(os.listdir(files.folder)) == ["copy.db-wal", "index.db", "index.db-wal"]


@catches("server/bin/index-restore",
         '        say("index-restore", f"{db}: {end}: a loss of power may undo this restore")', "        raise")
def test_a_restore_goes_on_if_the_disk_can_not_keep_its_names(files, monkeypatch, capsys):
    """The copy is in its place: what it forgets has to be told."""
    monkeypatch.setattr(RESTORE, "put_beside", lambda copy, beside, owner: None)
    monkeypatch.setattr(RESTORE, "exchange", lambda *_: None)
    monkeypatch.setattr(RESTORE, "ignore_signals", lambda: None)
    monkeypatch.setattr(RESTORE, "sync", raises(OSError(errno.EIO, "Input/output error")))
    units = types.SimpleNamespace(names=["a"], stop=lambda: None)
    words = types.SimpleNamespace(copy=files.copy, complete=False, with_pypi=f"{files.folder}/none")
    RESTORE.put_into_place(words, files.db, units, f"{files.folder}/beside", f"{files.folder}/aside")
    assert "Input/output error: a loss of power may undo this restore\n" in capsys.readouterr().err
