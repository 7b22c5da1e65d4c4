"""index-backup of an index with a volume: what is added to its copy, when a new one is begun, and what a stop leaves.
index-verify runs too, with a stand-in for the program."""
import json
import os
import sqlite3
import types
from contextlib import closing

import pytest
from support.library import carried, disk, exchange, volume, volume_copies
from support.library import ends as library_ends
from support.planted import catches
from support.programs import program_of
from support.server.pairs import add_file, delete_file, files_of, make_database, make_pair, places_of, spoil
from support.server.stand_ins import called, stand_ins
from support.unit import raises

BACKUP = program_of("index-backup")
Refused = library_ends.Refused
FIRST = {"frob-1.0.tar.gz": b"one" * 100, "frob-1.1.tar.gz": b"two" * 100}
DAY = 86400


class World:
    """A pair, a folder of its copies, and a clock of which each backup is a day later."""

    def __init__(self, tmp_path, monkeypatch):
        self.db, self.folder, self.bin = f"{tmp_path}/var/index.db", f"{tmp_path}/copies", f"{tmp_path}/bin"
        os.mkdir(tmp_path / "var")
        os.mkdir(self.folder)
        make_pair(self.db, FIRST)
        self.day = 0
        stand_ins(self.bin, index="")
        monkeypatch.setenv("INDEX", f"{self.bin}/index")
        real = BACKUP.datetime

        def now(zone):
            return real.datetime(2026, 1, 1, tzinfo=zone) + real.timedelta(days=self.day)

        monkeypatch.setattr(BACKUP, "datetime", types.SimpleNamespace(
            datetime=types.SimpleNamespace(now=now), timezone=real.timezone))
        monkeypatch.setattr(BACKUP, "time", types.SimpleNamespace(
            **{**vars(BACKUP.time), "time": lambda: 1_767_225_600.0 + self.day * DAY}))

    def backup(self, keep=14):
        """Makes a copy of the next day. Returns what is said."""
        self.day += 1
        return BACKUP.backup(self.db, self.folder, keep, None)

    def names(self):
        return sorted(os.listdir(self.folder))

    def kept(self):
        return [f"{self.folder}/{it}" for it in self.names() if it.endswith(".db")]

    def copies(self):
        return volume_copies.copies_in(self.folder)

    def are_whole(self):
        """Whether each kept database has its files in its copy, with their digests."""
        for db in self.kept():
            with volume.tables_of(db) as tables, volume.volume(volume.path_of_volume(db)) as file:
                if volume.first_wrong(file, volume.bodies_in(tables)):
                    return False
        return bool(self.kept())


@pytest.fixture
def world(tmp_path, monkeypatch):
    return World(tmp_path, monkeypatch)


def test_a_first_backup_begins_a_copy_and_says_what_it_added(world):
    said = world.backup()
    name = "index-20260102T000000Z"
    assert world.names() == [f"{name}.db", f"{name}.db-volume", f"{name}.volume", f"{name}.volume-note"]
    assert os.readlink(f"{world.folder}/{name}.db-volume") == f"{name}.volume"
    assert files_of(f"{world.folder}/{name}.db") == FIRST
    assert said.endswith(f" s; 600 bytes added to {world.folder}/{name}.volume")


def test_what_came_since_is_added_to_the_one_copy_that_all_databases_have(world):
    world.backup()
    add_file(world.db, "frob-1.2.tar.gz", b"three")
    delete_file(world.db, "frob-1.0.tar.gz")
    assert "; 5 bytes added to " in world.backup()
    first, second = world.kept()
    assert len(world.copies()) == 1 and files_of(first) == FIRST
    assert files_of(second) == {"frob-1.1.tar.gz": FIRST["frob-1.1.tar.gz"], "frob-1.2.tar.gz": b"three"}


def test_the_program_is_told_where_the_copy_is(world):
    world.backup()
    part, copy = f"{world.folder}/index-20260102T000000Z.part", world.copies()[0]
    assert called(world.bin) == f"index check --db {part} --volume {copy}\n"


@catches("server/lib/package_index/volume_copies.py", "end = max(start, end_of(tables))",
         "end = os.path.getsize(source)")
def test_an_upload_under_way_is_not_taken_for_a_file(world):
    """Its bytes lie above the last place, and the next upload may write over them."""
    with open(f"{world.db}-volume", "ab") as file:
        file.write(b"half of a file that was")
    world.backup()
    assert os.path.getsize(world.copies()[0]) == 600
    os.truncate(f"{world.db}-volume", 600)
    add_file(world.db, "frob-1.2.tar.gz", b"others")
    world.backup()
    assert len(world.copies()) == 1 and world.are_whole()


@catches("server/lib/package_index/volume_copies.py", "start = start_of(copy)", "start = os.path.getsize(copy)")
def test_what_a_killed_run_left_in_the_copy_is_written_anew(world):
    world.backup()
    with open(world.copies()[0], "ab") as file:
        file.write(b"half of what was added")
    add_file(world.db, "frob-1.2.tar.gz", b"three")
    world.backup()
    assert len(world.copies()) == 1 and world.are_whole()


@catches("server/lib/package_index/volume_copies.py", "end = max(start, end_of(tables))",
         "end = end_of(tables); start = min(start, end)")
def test_a_deleted_file_that_was_the_last_stays_in_the_copy_for_those_who_have_it(world):
    world.backup()
    delete_file(world.db, "frob-1.1.tar.gz")
    world.backup()
    add_file(world.db, "frob-1.2.tar.gz", b"three")
    world.backup()
    assert len(world.copies()) == 1 and world.are_whole() and files_of(world.kept()[0]) == FIRST


@catches("server/bin/index-verify", "wrong = None if found else fault_of_bytes(path, since)",
         "wrong = None if found or since else fault_of_bytes(path, since)")
@pytest.mark.parametrize("at", [0, 599])
def test_bytes_of_new_files_are_read_in_the_copy_and_a_new_one_is_begun(world, capsys, monkeypatch, at):
    carry = carried.carry

    def carry_once_wrong(*words):
        carry(*words)
        if len(world.copies()) == 1:
            spoil(world.copies()[0], 600)

    world.backup()
    add_file(world.db, "frob-1.2.tar.gz", b"three")
    monkeypatch.setattr(volume_copies, "carry", carry_once_wrong)
    world.backup()
    old, new = world.copies()
    assert "bytes that don't have the digest of their file: frob-1.2.tar.gz: a new copy of the volume is begun" in (
        capsys.readouterr().err)
    assert [volume_copies.databases_of(it) for it in (old, new)] == [[it] for it in world.kept()]
    assert world.are_whole()
    world.backup()
    assert len(volume_copies.databases_of(new)) == 2


@catches("server/bin/index-backup", "copied, since = begin(name, inode), None", "pass",
         also=["test_a_note_that_is_lost_has_all_read_and_begins_no_copy"])
@catches("server/bin/index-backup", "put_note(copied, Note(inode, now))", "pass")
@catches("server/lib/package_index/volume_copies.py",
         "if not databases or not note or not 0 <= now - note.read < WHOLE:", "if not databases:")
def test_files_that_were_read_before_are_read_again_after_a_month(world, capsys):
    for _ in range(2):
        world.backup()
    spoil(world.copies()[0], 0)
    world.backup()
    assert len(world.copies()) == 1 and capsys.readouterr().err == ""
    world.day = 29
    world.backup()
    assert len(world.copies()) == 1
    world.backup()
    assert len(world.copies()) == 2 and "a new copy of the volume is begun" in capsys.readouterr().err
    spoil(world.copies()[1], 0)
    world.backup()
    assert len(world.copies()) == 2


@catches("server/bin/index-backup", 'remove_oldest(folder, f"{name}.db", keep)',
         'remove_oldest(folder, f"{name}.db", keep); return name')
@catches("server/lib/package_index/volume_copies.py",
         "unused = [it for it in copies_in(folder) if not databases_of(it)]", "unused = copies_in(folder)[:-1]")
@catches("server/lib/package_index/volume_copies.py",
         "own = [it for it, note in notes.items() if note and note.inode == inode]", "own = list(notes)",
         also=["server/test_volumes.py::test_a_pair_that_is_put_back_goes_on_and_its_backup_begins_a_new_copy"])
def test_an_old_copy_stays_as_long_as_a_database_belongs_to_it(world):
    for _ in range(2):
        world.backup(2)
    os.rename(f"{world.db}-volume", f"{world.db}.old")
    with open(f"{world.db}-volume", "wb") as made, open(f"{world.db}.old", "rb") as old:
        made.write(old.read())
    world.backup(2)
    old, new = world.copies()
    assert [len(volume_copies.databases_of(it)) for it in (old, new)] == [1, 1] and world.are_whole()
    world.backup(2)
    assert world.copies() == [new] and world.are_whole()
    assert [it for it in world.names() if "note" in it] == [os.path.basename(f"{new}-note")]


def test_after_a_restore_another_file_at_the_same_place_is_seen(world, capsys):
    """Also if the file system gave the new volume the number of the old one."""
    world.backup()
    add_file(world.db, "frob-1.2.tar.gz", b"three")
    world.backup()
    os.remove(world.db)
    os.truncate(f"{world.db}-volume", 0)
    make_pair(world.db, FIRST)
    add_file(world.db, "frob-1.2.tar.gz", b"other")
    assert places_of(world.db) == places_of(world.kept()[1])
    world.backup()
    assert len(world.copies()) == 2 and world.are_whole()


def test_a_volume_that_is_wrong_itself_leaves_nothing_and_takes_no_copy_away(world):
    world.backup()
    before = world.names()
    add_file(world.db, "frob-1.2.tar.gz", b"three")
    spoil(f"{world.db}-volume", 601)
    with pytest.raises(Refused, match="the volume is not sound, and no copy was kept: .*frob-1.2.tar.gz"):
        world.backup()
    assert world.names() == before and world.are_whole()


def test_a_wrong_row_leaves_nothing_and_begins_no_copy(world):
    with closing(sqlite3.connect(world.db)) as tables, tables:
        tables.execute("UPDATE names SET live = 9")
    with pytest.raises(Refused, match="the copy is not sound, and was not kept: .*a wrong number of files: frob"):
        world.backup()
    assert world.names() == []


@pytest.mark.parametrize("body", [b"", bytes(15), bytes(17)])
def test_a_place_that_is_none_is_a_wrong_row(world, body):
    with closing(sqlite3.connect(world.db)) as tables, tables:
        tables.execute("UPDATE blobs SET body = ? WHERE file = 'frob-1.0.tar.gz'", (body,))
    with pytest.raises(Refused, match="a place that is none, or has not as many bytes as its file: frob-1.0.tar.gz"):
        world.backup()


def test_a_note_that_is_lost_has_all_read_and_begins_no_copy(world, capsys):
    world.backup()
    os.remove(f"{world.copies()[0]}-note")
    world.backup()
    assert len(world.copies()) == 1 and capsys.readouterr().err == ""
    with open(f"{world.copies()[0]}-note", "w") as note:
        note.write("{")
    spoil(world.copies()[0], 0)
    world.backup()
    assert len(world.copies()) == 2
    with open(f"{world.copies()[1]}-note") as note:
        assert json.load(note) == {"inode": os.stat(f"{world.db}-volume").st_ino,
                                   "read": 1_767_225_600.0 + world.day * DAY}


def test_a_database_of_before_that_is_damaged_keeps_no_backup_from_being_made(world):
    world.backup()
    with open(world.kept()[0], "r+b") as file:
        file.write(bytes(5000))
    world.backup()
    assert len(world.kept()) == 2 and files_of(world.kept()[1]) == FIRST


def test_links_and_copies_of_databases_that_are_gone_go(world):
    world.backup()
    os.remove(world.kept()[0])
    world.backup()
    name = "index-20260103T000000Z"
    assert world.names() == [f"{name}.db", f"{name}.db-volume", f"{name}.volume", f"{name}.volume-note"]


@catches("server/lib/package_index/volume_copies.py",
         "for copy in unused if unused and not without_link(folder) else ():", "for copy in unused:")
def test_a_move_that_loses_the_links_loses_no_bytes(world, capsys):
    """As a copy to a disk that knows no links."""
    world.backup()
    db, copy = world.kept()[0], world.copies()[0]
    os.remove(f"{db}-volume")
    world.backup()
    assert world.copies()[0] == copy and f"{db}: no link {db}-volume leads to the copy" in capsys.readouterr().err
    os.symlink(os.path.basename(copy), f"{db}-volume")
    assert world.are_whole()


@catches("server/lib/package_index/volume_copies.py", "want_room(os.path.dirname(copy), added, ADVICE)", "pass")
def test_room_is_wanted_for_what_is_added_before_it_is(world, monkeypatch):
    world.backup()
    before = world.names(), os.path.getsize(world.copies()[0])
    add_file(world.db, "frob-1.2.tar.gz", bytes(50))
    asked = []

    def want_room(folder, written, advice):
        asked.append((folder, written, advice))
        raise Refused("no room")

    monkeypatch.setattr(volume_copies, "want_room", want_room)
    with pytest.raises(Refused, match="no room"):
        world.backup()
    assert asked == [(world.folder, 50, "make room, or keep fewer copies")]
    assert (world.names(), os.path.getsize(world.copies()[0])) == before


@catches("server/lib/package_index/volume_copies.py", "            os.ftruncate(target, start)", "            pass")
def test_a_disk_that_is_full_meanwhile_leaves_the_copy_as_it_was(world, monkeypatch):
    world.backup()
    before = world.names(), os.path.getsize(world.copies()[0])
    add_file(world.db, "frob-1.2.tar.gz", bytes(50))
    write = carried.write_at
    monkeypatch.setattr(carried, "write_at", lambda file, piece, at: (write(file, piece[:20], at),
                                                                      raises(OSError(28, "full"))()))
    with pytest.raises(OSError, match="full"):
        world.backup()
    assert (world.names(), os.path.getsize(world.copies()[0])) == before


@catches("server/bin/index-backup", 'with alone(folder, "index-backup"), alone_with_volume(db, folder):',
         'with alone(folder, "index-backup"):')
def test_backup_restore_migration_and_punch_hold_one_lock(world, monkeypatch):
    monkeypatch.setattr(exchange, "PATIENCE", 0)
    with exchange.alone(os.path.dirname(world.db), exchange.AT_WORK):
        with pytest.raises(Refused, match=f"var: another {exchange.AT_WORK} is at work there"):
            world.backup()
    assert world.names() == []
    make_database(f"{os.path.dirname(world.db)}/other.db")
    with exchange.alone(os.path.dirname(world.db), exchange.AT_WORK):
        BACKUP.backup(f"{os.path.dirname(world.db)}/other.db", world.folder, 1, None)


def test_copies_in_the_folder_of_the_index_are_made_too(world):
    world.folder = os.path.dirname(world.db)
    assert "; 600 bytes added to " in world.backup()


class Killed(BaseException):
    """The program ended here, and tidied nothing up."""


STEPS = [(volume_copies, it) for it in ("put_note", "want_room", "carry", "sync")] + [
    (BACKUP, it) for it in ("begin", "add", "put_link", "put_note", "put_there", "remove_oldest")] + [
    (disk, "sync")]


@pytest.mark.slow
@pytest.mark.parametrize("is_after", [False, True])
@pytest.mark.parametrize("module, name", STEPS, ids=lambda it: getattr(it, "__name__", it))
def test_killed_at_a_step_it_has_lost_nothing_and_the_next_run_goes_on(world, monkeypatch, module, name, is_after):
    world.backup(2)
    add_file(world.db, "frob-1.2.tar.gz", b"three")
    spoil(world.copies()[0], 0)
    os.remove(f"{world.copies()[0]}-note")
    with monkeypatch.context() as killed:
        real = getattr(module, name)

        def call(*words, **more):
            if is_after:
                real(*words, **more)
            raise Killed

        killed.setattr(module, name, call)
        killed.setattr(BACKUP, "removed", lambda path: None)
        killed.setattr(BACKUP, "remove_unused", lambda folder: None)
        with pytest.raises(Killed):
            world.backup(2)
    spoil(world.copies()[0], 0)
    assert files_of(world.kept()[0]) == FIRST and world.are_whole()
    world.backup(2)
    assert world.are_whole() and files_of(world.kept()[-1])["frob-1.2.tar.gz"] == b"three"
    world.backup(2)
    assert not [it for it in world.names() if "part" in it] and len(world.kept()) == 2 and world.are_whole()
    assert len(world.copies()) <= 2


def test_without_a_volume_nothing_is_there_but_the_copy(tmp_path, monkeypatch):
    world = World(tmp_path, monkeypatch)
    other = make_database(f"{tmp_path}/other.db", FIRST)
    world.db = other
    said = world.backup()
    assert world.names() == ["index-20260102T000000Z.db"] and said.endswith(" s")
    assert called(world.bin) == f"index check --db {world.folder}/index-20260102T000000Z.part\n"


def test_a_volume_that_is_not_there_is_told(world):
    os.remove(f"{world.db}-volume")
    with pytest.raises(Refused, match="/index.db-volume: no such file, and the files of .*x.db are in it: put it "):
        world.backup()
    assert world.names() == []
