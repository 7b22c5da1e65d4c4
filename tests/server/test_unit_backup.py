"""Functions of index-backup at their boundaries, without a server."""
import itertools
import os
import subprocess
import types

import pytest
from support.library import ends as library_ends
from support.library import copied, disk, exchange
from support.places import TOP
from support.planted import catches
from support.programs import program_of
from support.unit import calls, ends, raises, with_time

BACKUP = program_of("index-backup")
Refused = library_ends.Refused


def test_copies_are_listed_oldest_first_and_nothing_else_is_a_copy(tmp_path):
    names = ["index-20260102T000000Z.db", "index-20251231T235959Z.db", "index-20260101T000000Z.db"]
    others = ["other.db", "index-20260103T000000Z.db.part", "index.db-wal", "aindex-1.db", "index-mine.db"]
    for name in [*names, *others]:
        (tmp_path / name).touch()
    assert [os.path.basename(it) for it in BACKUP.kept(str(tmp_path), ".db")] == sorted(names)


def test_the_state_of_a_database_is_the_header_of_its_log_or_its_time(tmp_path):
    db = tmp_path / "index.db"
    db.write_bytes(b"x")
    os.utime(db, ns=(5, 7))
    assert copied.state(str(db)) == 7
    (tmp_path / "index.db-wal").write_bytes(bytes(range(40)))
    assert copied.state(str(db)) == bytes(range(32))
    (tmp_path / "index.db-wal").write_bytes(b"")
    assert copied.state(str(db)) == 7


def test_pauses_between_trials_grow_to_five_seconds():
    assert [copied.pause_after(it) for it in (1, 2, 49, 50, 51, 1000)] == pytest.approx([0.1, 0.2, 4.9, 5, 5, 5])


class World:
    """A database in a folder, whose states are told in this order; each pause is counted."""

    def __init__(self, tmp_path, monkeypatch, states):
        self.db, self.target = str(tmp_path / "index.db"), str(tmp_path / "copy")
        for end, data in (("", b"database"), ("-wal", b"log")):
            with open(self.db + end, "wb") as made:
                made.write(data)
        states, self.pauses = iter(states), []
        monkeypatch.setattr(copied, "state", lambda db: next(states) if db == self.db else None)
        with_time(monkeypatch, copied, sleep=self.pauses.append)


def test_a_copy_is_of_one_moment(tmp_path, monkeypatch):
    other = World(tmp_path, monkeypatch, [b"1", b"1", b"2", b"2", b"3", b"3", b"3", b"3", b"3"])
    assert copied.copied_whole(other.db, other.target) == 3
    assert other.pauses == pytest.approx([0.1, 0.2])
    assert (tmp_path / "copy").read_bytes() == b"database" and (tmp_path / "copy-wal").read_bytes() == b"log"


def test_a_log_that_is_empty_is_not_copied_and_an_old_copy_of_one_goes(tmp_path, monkeypatch):
    other = World(tmp_path, monkeypatch, [7, 7, 7])
    with open(f"{other.target}-wal", "wb") as left:
        left.write(b"of before")
    assert copied.copied_whole(other.db, other.target) == 1
    assert not os.path.exists(f"{other.target}-wal") and other.pauses == []


def test_after_twenty_trials_no_copy_was_made(tmp_path, monkeypatch):
    other = World(tmp_path, monkeypatch, itertools.count(1))
    assert copied.copied_whole(other.db, other.target) is None
    assert len(other.pauses) == 20


@pytest.mark.parametrize("trials, unit, given, asked", [
    ([3], "one.service", 3, []), ([3], None, 3, []), ([None], None, None, []),
    ([None, 1], "one.service", 1, [("systemctl", "stop", "one.service"), ("systemctl", "start", "one.service")]),
    ([None, None], "one.service", None, [("systemctl", "stop", "one.service"), ("systemctl", "start", "one.service")])])
def test_a_unit_is_stopped_only_if_nothing_else_works(monkeypatch, trials, unit, given, asked):
    left = list(trials)
    monkeypatch.setattr(BACKUP, "copied_whole", lambda *_: left.pop(0))
    run = calls(monkeypatch, BACKUP, "run")
    if given:
        assert BACKUP.copied_somehow("db", "target", unit) == given
    else:
        with pytest.raises(Refused, match="during each of 20 trials; --unit stops"):
            BACKUP.copied_somehow("db", "target", unit)
    assert run == asked and not left


def test_a_unit_is_started_again_if_the_copy_fails(monkeypatch):
    left = [None]
    monkeypatch.setattr(BACKUP, "copied_whole", lambda *_: left.pop(0))
    run = calls(monkeypatch, BACKUP, "run")
    with pytest.raises(IndexError):
        BACKUP.copied_somehow("db", "target", "one.service")
    assert [it[1] for it in run] == ["stop", "start"]


def test_a_copy_that_is_not_sound_is_refused_with_the_reason(monkeypatch):
    asked = calls(monkeypatch, BACKUP, "run", raises(Refused("a wrong row")))
    with pytest.raises(Refused, match="not sound, and was not kept: a wrong row"):
        BACKUP.tested("copy")
    assert asked == [(f"{BACKUP.HERE}/index-verify", "copy")]


def backed(tmp_path, monkeypatch, keep=14, unit=None):
    """The line of a backup of a database of some bytes, which is copied in a quarter of a second, and tested by nobody
    in three."""
    (tmp_path / "index.db").write_bytes(b"database")
    os.makedirs(tmp_path / "copies", exist_ok=True)
    monkeypatch.setattr(BACKUP, "tested", lambda _: None)
    with_time(monkeypatch, BACKUP, monotonic=iter([100.0, 100.25, 101.0]).__next__)
    moment = BACKUP.datetime.datetime(2026, 1, 2, 3, 4, 5, tzinfo=BACKUP.datetime.timezone.utc)
    monkeypatch.setattr(BACKUP.datetime, "datetime", types.SimpleNamespace(now=lambda zone: moment.astimezone(zone)))
    return BACKUP.backup(str(tmp_path / "index.db"), str(tmp_path / "copies"), keep, unit)


def test_a_backup_has_the_name_of_its_moment_and_its_line(tmp_path, monkeypatch):
    said = backed(tmp_path, monkeypatch)
    name = tmp_path / "copies" / "index-20260102T030405Z.db"
    assert said == f"{name}: 8 bytes, copied in 0.25 s at trial 1, tested in 0.75 s"
    assert os.listdir(tmp_path / "copies") == [name.name] and name.read_bytes() == b"database"


@pytest.mark.parametrize("keep, left", [(1, []), (2, ["index-20250102T000000Z.db"]),
                                        (3, ["index-20250101T000000Z.db", "index-20250102T000000Z.db"])])
def test_the_oldest_copies_go_and_parts_of_a_run_that_was_killed(tmp_path, monkeypatch, keep, left):
    os.mkdir(tmp_path / "copies")
    for name in ("index-20250101T000000Z.db", "index-20250102T000000Z.db", "index-20240101T000000Z.part",
                 "index-20240101T000000Z.part-wal"):
        (tmp_path / "copies" / name).touch()
    backed(tmp_path, monkeypatch, keep)
    assert sorted(os.listdir(tmp_path / "copies")) == [*left, "index-20260102T030405Z.db"]


@catches("server/lib/package_index/disk.py", "        sync(os.path.dirname(path))", "        pass")
def test_a_copy_is_on_the_disk_before_an_old_one_goes(tmp_path, monkeypatch):
    os.mkdir(tmp_path / "copies")
    (tmp_path / "copies" / "index-20250101T000000Z.db").touch()
    there = []
    monkeypatch.setattr(disk, "sync", lambda it: os.path.isdir(it) and there.append(sorted(os.listdir(it))))
    backed(tmp_path, monkeypatch, 1)
    assert there == [["index-20250101T000000Z.db", "index-20260102T030405Z.db"]]


@pytest.mark.parametrize("keep", [1, 2])
def test_no_copy_is_removed_while_one_of_a_later_time_is_there(tmp_path, monkeypatch, keep):
    os.mkdir(tmp_path / "copies")
    before = ["index-20250101T000000Z.db", "index-20360101T031500Z.db", "index-20360102T031500Z.db"]
    for name in before:
        (tmp_path / "copies" / name).touch()
    with pytest.raises(Refused) as refused:
        backed(tmp_path, monkeypatch, keep)
    made, last = "index-20260102T030405Z.db", before[-1]
    assert f"{made} is kept, but {tmp_path}/copies/{last} is of a later time" in str(refused.value)
    assert "the clock (timedatectl)" in str(refused.value)
    assert sorted(os.listdir(tmp_path / "copies")) == sorted([*before, made])


@catches("server/bin/index-backup", 'if name.endswith(end) and COPY.fullmatch(f"{name[:-len(end)]}.db")]',
         "if name.endswith(end)]")
def test_a_file_that_a_person_named_is_no_copy_of_a_later_time_and_stays(tmp_path, monkeypatch):
    os.mkdir(tmp_path / "copies")
    (tmp_path / "copies" / "index-mine.db").touch()
    (tmp_path / "copies" / "index-20250101T000000Z.db").touch()
    backed(tmp_path, monkeypatch, 1)
    assert sorted(os.listdir(tmp_path / "copies")) == ["index-20260102T030405Z.db", "index-mine.db"]


def test_a_backup_that_fails_leaves_nothing_and_takes_no_old_copy_away(tmp_path, monkeypatch):
    os.mkdir(tmp_path / "copies")
    (tmp_path / "copies" / "index-20250101T000000Z.db").touch()

    def fails(part):
        for end in ("-wal", "-shm"):
            open(part + end, "w").close()
        raise Refused("not sound")

    monkeypatch.setattr(BACKUP, "tested", fails)
    (tmp_path / "index.db").touch()
    with pytest.raises(Refused, match="not sound"):
        BACKUP.backup(str(tmp_path / "index.db"), str(tmp_path / "copies"), 1, None)
    assert os.listdir(tmp_path / "copies") == ["index-20250101T000000Z.db"]


def test_room_is_wanted_for_the_log_twice_before_anything_is_copied(tmp_path, monkeypatch):
    (tmp_path / "index.db-wal").write_bytes(bytes(50))
    asked = calls(monkeypatch, BACKUP, "want_room", raises(Refused("no room")))
    made = calls(monkeypatch, copied, "copy")
    with pytest.raises(Refused, match="no room"):
        backed(tmp_path, monkeypatch)
    assert asked == [(str(tmp_path / "copies"), 8 + 2 * 50, "make room, or keep fewer copies")] and not made


def test_a_database_that_is_not_there_is_told(tmp_path, monkeypatch, capsys):
    status, out, err = ends(BACKUP, monkeypatch, capsys, tmp_path / "none.db", tmp_path)
    assert (status, out) == (1, "") and "index-backup: " in err and "none.db" in err


@catches("server/bin/index-backup", 'with alone(folder, "index-backup"), alone_with_volume(db, folder):',
         "with alone_with_volume(db, folder):")
def test_a_second_backup_at_the_same_time_is_refused_and_takes_no_part_away(tmp_path, monkeypatch, capsys):
    """Two that began in one second had one name: the first could keep a copy without its log."""
    part = tmp_path / "index-20260101T000000Z.part-wal"
    part.touch()
    with exchange.alone(str(tmp_path), "x"):
        status, _, err = ends(BACKUP, monkeypatch, capsys, tmp_path / "index.db", tmp_path)
    assert status == 1 and f"{tmp_path}: another index-backup is at work there" in err and part.exists()


@catches("server/lib/package_index/exchange.py", "    except BlockingIOError:", "    except OSError:",
         also=["server/test_unit_reseal.py::test_a_folder_that_can_t_be_locked_takes_a_new_file_all_the_same"])
@pytest.mark.parametrize("end", [OSError(9, "a folder on NFS"), OSError(38, "no locks")])
def test_a_folder_that_can_t_be_locked_takes_copies_all_the_same(tmp_path, monkeypatch, end):
    monkeypatch.setattr(exchange.fcntl, "flock", raises(end))
    assert ": 8 bytes, copied in " in backed(tmp_path, monkeypatch)


def test_the_words_of_a_backup(monkeypatch, capsys):
    monkeypatch.delenv("UNIT", raising=False)
    asked = calls(monkeypatch, BACKUP, "backup", "a line")
    before = os.umask(0o022)
    assert ends(BACKUP, monkeypatch, capsys, "db", "folder/")[:2] == (0, "a line\n")
    assert os.umask(before) == 0o077
    ends(BACKUP, monkeypatch, capsys, "db", "/", "1", "--unit", "one.service")
    db = os.path.realpath("db")
    assert asked == [(db, "folder", 14, None), (db, "/", 1, "one.service")]
    status, _, err = ends(BACKUP, monkeypatch, capsys, "db", "folder", "0")
    assert status == 2 and "KEEP is 1 or more" in err
    os.umask(before)


def test_the_unit_of_the_environment_is_taken(tmp_path):
    look = ("import sys; sys.argv = ['x', 'db', 'f']; sys.dont_write_bytecode = True\n"
            "from support.programs import program_of\nmodule = program_of('index-backup')\n"
            "module.backup = lambda *words: words[3]\nsys.exit(module.main())")
    ended = subprocess.run(["/usr/bin/python3", "-c", look], stdout=subprocess.PIPE, text=True,
                           env={**os.environ, "UNIT": "one.service", "PYTHONPATH": f"{TOP}/tests"})
    assert ended.stdout == "one.service\n"
