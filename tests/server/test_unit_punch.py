"""index-punch over pairs that SQLite makes, without the program: what goes, what stays, and what is refused."""
import os
import shutil
import sqlite3
import struct
from contextlib import closing, nullcontext

import pytest
from support.library import ends as library_ends
from support.library import holes, punched
from support.planted import catches
from support.server.pairs import add_file, delete_file, files_of, make_database, opened, places_of, spoil
from support.server.punching import BLOCK, FILES, FIRST, LAST, PUNCH, SECOND, THIRD, World, run
from support.unit import calls

Refused = library_ends.Refused
ROOT = "SELECT rootpage FROM sqlite_master WHERE name ="


@pytest.fixture
def world(tmp_path, monkeypatch):
    return World(tmp_path, monkeypatch)


def places(db):
    """Where each file is, also of one that was deleted since."""
    found = places_of(db)
    return {file: slice(at, at + size) for file, (at, size) in found.items()}


def in_a_log(tables):
    """What is changed from here on stays in a log beside the database, as long as these tables are open."""
    tables.execute("PRAGMA journal_mode = WAL")
    tables.execute("SELECT * FROM meta").fetchall()


@catches("server/lib/package_index/free_ranges.py",
         "            at = max(at, stop)", "            at = max(at, stop - 1)")
@catches("server/lib/package_index/free_ranges.py", "                yield at, min(begin, end)",
         "                yield at, min(begin + 1, end)")
def test_what_was_deleted_goes_and_each_file_that_is_there_stays(world):
    at = places(world.db)
    world.delete(FIRST, THIRD)
    done, above = world.punch()
    whole = world.bytes()
    assert not whole[at[FIRST]].strip(b"\0") and not whole[at[THIRD]].strip(b"\0")
    assert files_of(world.db) == {SECOND: FILES[SECOND], LAST: FILES[LAST]} and above == 0
    # of the first two blocks, and of the third file, from 16484 to 24876, one
    assert done == (3 * BLOCK, 0)
    assert len(whole) == sum(map(len, FILES.values()))


@catches("server/lib/package_index/punched.py", "length if is_stopped else end", "length")
def test_bytes_above_the_last_place_stay_since_their_row_may_be_written_any_moment(world):
    """As of an upload between its sync and its row, and of a deleted file that was the last one."""
    upload = b"upload" * BLOCK
    with open(world.volume, "ab") as file:
        file.write(upload)
    assert world.punch() == ((0, 0), len(upload)) and world.bytes().endswith(upload)
    world.delete(LAST)
    assert world.punch() == ((0, 0), len(upload) + len(FILES[LAST]))
    assert world.bytes().endswith(FILES[LAST] + upload)


def test_what_a_crash_left_of_an_upload_goes_after_the_next_one(world):
    """The next run of the index puts its uploads at the end of the volume, and so above what has no row."""
    with open(world.volume, "ab") as file:
        file.write(b"upload" * BLOCK)
    add_file(world.db, "frob-2.0.tar.gz", b"next" * BLOCK)
    done, above = world.punch()
    assert above == 0 and done.given >= 5 * BLOCK and b"upload" not in world.bytes()
    assert files_of(world.db) == {**FILES, "frob-2.0.tar.gz": b"next" * BLOCK}


def test_an_upload_while_the_database_is_copied_is_above_all_that_is_punched(world, monkeypatch):
    world.delete(FIRST)
    real, late = punched.copied_whole, b"late" * BLOCK

    def copied_whole(db, made):
        found = real(db, made)
        add_file(db, "frob-2.0.tar.gz", late)
        delete_file(db, LAST)
        return found

    monkeypatch.setattr(punched, "copied_whole", copied_whole)
    world.punch()
    assert files_of(world.db) == {SECOND: FILES[SECOND], THIRD: FILES[THIRD], "frob-2.0.tar.gz": late}
    assert FILES[LAST] in world.bytes()


@catches("server/lib/package_index/punched.py", "0 if is_stopped else max(length - end, 0)", "length - end")
@catches("server/lib/package_index/punched.py", "length if is_stopped else end", "end")
def test_of_an_index_that_is_stopped_all_goes(world):
    world.delete(FIRST, LAST)
    with open(world.volume, "ab") as file:
        file.write(b"upload" * BLOCK)
    done, above = world.punch(is_stopped=True)
    assert above == 0 and done.given > 7 * BLOCK
    assert files_of(world.db) == {SECOND: FILES[SECOND], THIRD: FILES[THIRD]}
    assert set(world.bytes()[places(world.db)[THIRD].stop:]) == {0}


@catches("server/lib/package_index/punched.py",
         "            length = os.fstat(file).st_size\n            made = copy_of(db, folder)\n",
         "            made = copy_of(db, folder)\n            length = os.fstat(file).st_size\n")
def test_an_index_that_starts_meanwhile_puts_its_uploads_above_all_that_is_punched(world, monkeypatch):
    """Its row may not be written yet, and it starts at the end of the volume."""
    world.delete(LAST)
    upload, real = b"upload" * BLOCK, punched.copied_whole

    def copied_whole(db, made):
        found = real(db, made)
        with open(world.volume, "ab") as file:
            file.write(upload)
        return found

    monkeypatch.setattr(punched, "copied_whole", copied_whole)
    world.punch(is_stopped=True)
    assert FILES[LAST] not in world.bytes() and world.bytes().endswith(upload)


def test_stopped_is_what_no_program_has_open(world, monkeypatch, capsys):
    asked = calls(monkeypatch, PUNCH, "stopped", lambda _: nullcontext())
    world.delete(LAST)
    assert run(monkeypatch, capsys, world, "--stopped")[0] == 0 and FILES[LAST] not in world.bytes()
    assert asked == [(world.db,)]


@catches("server/bin/index-punch", "            stack.enter_context(stopped(db))", "            pass")
def test_an_index_that_serves_is_not_stopped(world, monkeypatch, capsys):
    def lock(database):
        raise Refused(f"{database.name}: another program still has it open; stop that first")

    monkeypatch.setattr(punched, "lock", lock)
    world.delete(LAST)
    status, _, err = run(monkeypatch, capsys, world, "--stopped")
    assert status == 1 and "index.db: another program still has it open" in err and FILES[LAST] in world.bytes()


class TestRefused:
    """Nothing is punched."""

    def refused(self, world, why, what="index.db"):
        before = world.bytes()
        with pytest.raises(Refused, match=why):
            world.punch()
        assert world.bytes() == before and os.listdir(world.notes) == []

    def change(self, world, *texts):
        with closing(opened(world.db)) as tables, tables:
            for text in texts:
                tables.execute(text)

    @catches("server/lib/package_index/punched.py", "    if version != (VERSION,):", "    if not version:")
    def test_rows_that_have_bytes_and_no_places(self, world):
        """Sixteen bytes of a file would be read as a place."""
        os.remove(world.db)
        make_database(world.db, {FIRST: struct.pack(">QQ", 5, 7)})
        self.refused(world, "its rows have no places in a volume")

    @catches("server/lib/package_index/punched.py",
             "        if not place:\n            raise",
             "        if not place:\n            continue\n            raise")
    @pytest.mark.parametrize("body", ["x'00'", "zeroblob(17)", "x'7fffffffffffffff0000000000000001'"])
    def test_a_row_whose_place_nobody_can_read(self, world, body):
        self.change(world, f"UPDATE blobs SET body = {body} WHERE file = '{FIRST}'")
        self.refused(world, "a row has no place in a volume")

    @catches("server/lib/package_index/punched.py", 'if said != ("ok",) or lost:', 'if said != ("ok",):')
    def test_a_row_that_was_lost(self, world):
        self.change(world, f"DELETE FROM blobs WHERE file = '{FIRST}'")
        self.refused(world, f"is not whole, so nobody knows which bytes are free: {FIRST}")

    @catches("server/lib/package_index/punched.py", 'if said != ("ok",) or lost:', "if lost:")
    def test_a_damaged_page(self, world):
        with closing(sqlite3.connect(world.db)) as tables:
            root, = tables.execute(f"{ROOT} 'sqlite_autoindex_users_1'").fetchone()
        spoil(world.db, (root - 1) * 4096 + 4090, 4)
        self.refused(world, "is not whole, so nobody knows")

    @catches("server/lib/package_index/punched.py", "    want_length(file, end)\n", "")
    def test_a_volume_that_is_too_short(self, world):
        os.truncate(world.volume, os.path.getsize(world.volume) - 1)
        self.refused(world, "and the last place of the database ends at")

    @catches("server/lib/package_index/punched.py",
             "        if place and first_wrong(", "        if not place and first_wrong(")
    def test_the_volume_of_another_database(self, world):
        world.delete(FIRST)
        spoil(world.volume, places(world.db)[LAST].start)
        add_file(world.db, "frob-1.9.tar.gz", b"")
        self.refused(world, f"this is not its volume, or was damaged: {LAST} has other bytes there")

    @catches("server/lib/package_index/punched.py",
             "if not os.path.samestat(", "if os.path.samestat(", ("server/lib/package_index/punched.py",
             "raise Refused(f\"{path} was exchanged meanwhile\")", "pass"))
    def test_a_volume_that_is_exchanged_meanwhile(self, world, monkeypatch):
        real = punched.copied_whole

        def copied_whole(db, made):
            shutil.copy(world.volume, f"{world.volume}2")
            os.replace(f"{world.volume}2", world.volume)
            return real(db, made)

        world.delete(FIRST)
        monkeypatch.setattr(punched, "copied_whole", copied_whole)
        self.refused(world, "index.db-volume was exchanged meanwhile")

    def test_a_volume_that_is_a_link(self, world):
        os.rename(world.volume, f"{world.db}-other")
        os.symlink("index.db-other", world.volume)
        self.refused(world, "a link to index.db-other")

    @catches("server/lib/package_index/punched.py",
             "if not copied_whole(db, made):", "if copied_whole(db, made) == 0:")
    def test_a_log_that_never_rests(self, world, monkeypatch):
        calls(monkeypatch, punched, "copied_whole")
        self.refused(world, "the log of .*index.db was begun again during each of 20 trials")

    @catches("server/lib/package_index/punched.py", "    want_room(folder, size)\n", "")
    def test_a_disk_without_room_for_the_copy(self, world, monkeypatch):
        monkeypatch.setattr(punched, "want_room", lambda *it: exec("raise Refused('no room')", {"Refused": Refused}))
        self.refused(world, "no room")


@catches("server/lib/package_index/punched.py", "            sync(path)\n", "            pass\n")
def test_what_was_read_is_on_the_disk_before_anything_is_punched(world, monkeypatch):
    """The index may have written a ban that a loss of power undoes."""
    order = []
    with closing(opened(world.db)) as tables:
        in_a_log(tables)
        delete_file(world.db, FIRST)
        monkeypatch.setattr(punched, "sync", lambda it: order.append(os.path.basename(it)))
        monkeypatch.setattr(punched, "punch", lambda *_: (order.append("punch"), holes.Punched(0, 0))[1])
        world.punch()
    assert order == ["index.db", "index.db-wal", "punch"]


@catches("server/lib/package_index/punched.py", "            removed(f\"{folder}/{MADE}\")", "            pass")
def test_a_ban_that_the_log_alone_has_counts_and_the_copy_goes(world):
    at = places(world.db)[FIRST]
    with closing(opened(world.db)) as tables:
        in_a_log(tables)
        delete_file(world.db, FIRST)
        assert os.path.getsize(f"{world.db}-wal") > 0
        world.punch()
        assert set(world.bytes()[at]) == {0} and os.listdir(world.notes) == []


class TestCopies:
    """Of the volume, beside the kept databases."""

    @catches("server/lib/package_index/punched.py", "for db in databases:", "for db in databases[1:]:")
    @catches("server/lib/package_index/punched.py", "for db in databases:", "for db in databases[:-1]:")
    def test_what_no_kept_database_has_goes_and_what_one_has_stays(self, world):
        one = world.keep(1)
        world.delete(FIRST)
        two = world.keep(2)
        world.delete(SECOND)
        three = world.keep(3)
        assert punched.punch_copies(world.folder) == [(0, 0)]
        os.remove(one)
        os.remove(f"{one}-volume")
        punched.punch_copies(world.folder)
        assert files_of(two) == {it: FILES[it] for it in (SECOND, THIRD, LAST)}
        assert FILES[FIRST] not in world.bytes(world.copy())
        for it in (two, f"{two}-volume"):
            os.remove(it)
        punched.punch_copies(world.folder)
        assert FILES[SECOND] not in world.bytes(world.copy())
        assert files_of(three) == {it: FILES[it] for it in (THIRD, LAST)}

    def test_what_lies_above_the_last_place_of_all_goes_too(self, world):
        """No upload is written there, and what a later backup adds overwrites it."""
        one = world.keep(1)
        world.delete(LAST)
        world.keep(2)
        for it in (one, f"{one}-volume"):
            os.remove(it)
        punched.punch_copies(world.folder)
        assert FILES[LAST] not in world.bytes(world.copy())

    def test_each_copy_has_its_own_databases(self, world):
        one = world.keep(1)
        world.delete(FIRST)
        two = world.keep(2, copy=2)
        punched.punch_copies(world.folder)
        assert files_of(one) == FILES and FILES[FIRST] not in world.bytes(world.copy(2))
        assert files_of(two) == {it: FILES[it] for it in (SECOND, THIRD, LAST)}

    def refused(self, world, why):
        before = [world.bytes(it) for it in punched.copies_in(world.folder)]
        with pytest.raises(Refused, match=why):
            punched.punch_copies(world.folder)
        assert [world.bytes(it) for it in punched.copies_in(world.folder)] == before

    @catches("server/lib/package_index/punched.py",
             "    if lost and copies_in(folder):", "    if not lost and copies_in(folder):")
    def test_without_a_link_nobody_knows_which_bytes_are_free(self, world):
        one = world.keep(1)
        world.delete(FIRST)
        world.keep(2)
        os.remove(f"{one}-volume")
        self.refused(world, f"{one}: no link says which copy of the volume it belongs to")

    @catches("server/lib/package_index/punched.py", "            want_pair(tables, db, file)\n", "")
    def test_a_link_to_another_copy_is_refused(self, world):
        one = world.keep(1)
        world.delete(FIRST)
        world.keep(2, copy=2)
        spoil(world.copy(2), places(one)[LAST].start)
        self.refused(world, "this is not its volume, or was damaged")

    def test_a_database_that_cant_be_read_keeps_all(self, world):
        one = world.keep(1)
        world.delete(FIRST)
        world.keep(2)
        with open(one, "r+b") as made:
            made.write(bytes(100))
        self.refused(world, "file is not a database")

    @catches("server/lib/package_index/punched.py", 'if not it.endswith(".part")]', "]")
    def test_a_part_of_a_killed_backup_is_no_kept_database(self, world):
        world.keep(1)
        world.delete(FIRST)
        part = world.keep(2)
        for end in ("", "-volume"):
            os.rename(part + end, f"{part[:-3]}.part{end}")
        with open(f"{part[:-3]}.part", "r+b") as made:
            made.truncate(5000)
        assert punched.punch_copies(world.folder) == [(0, 0)]

    @catches("server/lib/package_index/punched.py", "        if databases:", "        if copy:")
    def test_a_copy_without_a_database_is_left_to_the_next_backup(self, world):
        shutil.copy(world.volume, world.copy())
        assert punched.punch_copies(world.folder) == [] and world.bytes(world.copy()) == world.bytes()
