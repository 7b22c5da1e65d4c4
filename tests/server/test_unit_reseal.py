"""Functions of index-reseal at their boundaries, without the program."""
import os
import sqlite3
import struct
import types
from contextlib import closing

import pytest
from support.library import ends as library_ends
from support.library import exchange
from support.planted import catches
from support.programs import program_of
from support.server.pairs import make_pair
from support.sqlite_logs import summed
from support.unit import calls, ends, raises

RESEAL = program_of("index-reseal")
Refused = library_ends.Refused


def database(path, size=512, free=8, pages=3):
    """Something with a header as a database has it."""
    head = b"SQLite format 3\0" + struct.pack(">H", 1 if size == 65536 else size) + b"\1\1" + bytes([free])
    path.write_bytes(head + bytes(range(256)) * (size * pages // 256 + 1))
    os.truncate(path, size * pages)
    return path.read_bytes()


@pytest.mark.parametrize("size, pages", [(512, 3), (4096, 2), (65536, 2)])
def test_each_page_ends_in_its_sum_and_the_first_tells_of_a_log(tmp_path, monkeypatch, size, pages):
    synced = calls(monkeypatch, RESEAL.os, "fsync")
    before, path = database(tmp_path / "x.db", size, pages=pages), tmp_path / "x.db"
    RESEAL.seal(str(path))
    after = path.read_bytes()
    assert after[18:20] == b"\2\2" and len(after) == len(before) and len(synced) == 1
    for at in range(0, len(after), size):
        page = after[at:at + size]
        assert page[-8:] == struct.pack("<2I", *summed(False, (0, 0), page[:-8]))
        assert page[20 if at == 0 else 0:-8] == before[at:at + size][20 if at == 0 else 0:-8]


@pytest.mark.parametrize("free", [0, 7, 9])
def test_pages_without_room_for_a_sum_are_refused(tmp_path, free):
    before = database(tmp_path / "x.db", free=free)
    with pytest.raises(Refused, match=f"pages with {free} free bytes in place of 8"):
        RESEAL.seal(str(tmp_path / "x.db"))
    assert (tmp_path / "x.db").read_bytes() == before


@pytest.mark.parametrize("has_log", [True, False])
def test_a_database_is_copied_with_its_log_while_it_is_locked(tmp_path, monkeypatch, has_log):
    order, db = [], tmp_path / "x.db"
    db.write_bytes(b"database")
    if has_log:
        (tmp_path / "x.db-wal").write_bytes(b"log")
    monkeypatch.setattr(RESEAL, "lock", lambda file: order.append(("lock", file.name)))
    monkeypatch.setattr(RESEAL, "run", lambda *words: order.append(words[-2:]))
    RESEAL.copy_locked(str(db), "target")
    copied = [(f"{db}{end}", f"target{end}") for end in ("", "-wal")[:1 + has_log]]
    assert order == [("lock", str(db)), *copied]


class World:
    """A sound database, of which a new file is made by stand-ins for the commands."""

    def __init__(self, tmp_path, monkeypatch):
        self.db, self.new, self.part, self.asked = tmp_path / "it's.db", tmp_path / "new.db", tmp_path / "part", []
        with closing(sqlite3.connect(self.db)) as made:
            made.execute("CREATE TABLE x (y)")
        (tmp_path / "it's.db-wal").write_bytes(bytes(10))
        os.mkdir(self.part)
        monkeypatch.setattr(RESEAL, "run", self.run)
        monkeypatch.setattr(RESEAL, "seal", lambda path: self.asked.append(("seal", path)))
        monkeypatch.setattr(RESEAL, "want_room", lambda *words: self.asked.append(("room", *words)))

    def run(self, *words):
        self.asked.append(words)
        if words[0] == "cp":
            with open(words[-2], "rb") as old, open(words[-1], "wb") as new:
                new.write(old.read() if words[-1].endswith(".db") else b"")
        if words[0] == "sqlite3":
            (self.part / "new.db").touch()


def test_a_new_file_is_made_by_way_of_looks_and_tests(tmp_path, monkeypatch):
    world = World(tmp_path, monkeypatch)
    RESEAL.make(str(world.db), str(world.new), str(world.part))
    names = [words[0] for words in world.asked]
    assert names == [f"{RESEAL.HERE}/index-log", "room", "cp", "cp", "sqlite3", "seal", f"{RESEAL.HERE}/index-verify"]
    assert world.asked[1] == ("room", str(world.part), 2 * (os.path.getsize(world.db) + 10))
    made = f"VACUUM INTO '{world.part}/new.db'"
    assert world.asked[4] == ("sqlite3", f"{world.part}/copy.db", ".filectrl reserve_bytes 8", made)
    assert world.new.exists() and world.asked[6][1] == f"{world.part}/new.db"


def test_a_quote_in_a_path_is_written_twice(tmp_path, monkeypatch):
    os.mkdir(tmp_path / "it's")
    world = World(tmp_path / "it's", monkeypatch)
    RESEAL.make(str(world.db), str(world.new), str(world.part))
    assert "it''s/part/new.db'" in world.asked[4][-1]


def test_a_database_with_damage_is_refused(tmp_path, monkeypatch):
    world = World(tmp_path, monkeypatch)
    with closing(sqlite3.connect(world.db)) as made:
        made.execute("CREATE TABLE z (y NOT NULL)")
        made.execute("INSERT INTO z VALUES (1)")
        made.execute("PRAGMA writable_schema = 1")
        made.execute("UPDATE sqlite_master SET rootpage = 99 WHERE name = 'x'")
        made.commit()
    with pytest.raises((Refused, sqlite3.DatabaseError)):
        RESEAL.make(str(world.db), str(world.new), str(world.part))
    assert not world.new.exists() and "sqlite3" not in [words[0] for words in world.asked]


def test_what_sqlite_finds_is_refused(tmp_path, monkeypatch):
    world, said = World(tmp_path, monkeypatch), [("row 1 missing",)] * 9
    rows = types.SimpleNamespace(fetchall=lambda: said)
    stands = types.SimpleNamespace(close=lambda: None, execute=lambda text: rows)
    monkeypatch.setattr(RESEAL, "has_places", lambda db: False)
    monkeypatch.setattr(RESEAL.sqlite3, "connect", lambda path: {f"{world.part}/copy.db": stands}[path])
    with pytest.raises(Refused) as refused:
        RESEAL.make(str(world.db), str(world.new), str(world.part))
    assert str(refused.value) == f"integrity_check: {said[:3]}" and not world.new.exists()


@catches("server/bin/index-reseal", "if has_places(db):", "if not db:")
def test_a_database_with_a_volume_is_refused_at_once(tmp_path, monkeypatch):
    """The new file would have no volume beside it, and index-restore would refuse it."""
    world = World(tmp_path, monkeypatch)
    with pytest.raises(Refused, match="has a volume: move its bytes back .index-migrate --one-file.*keeps the sums"):
        RESEAL.make(make_pair(f"{tmp_path}/pair.db"), str(world.new), str(world.part))
    assert not world.asked and os.listdir(world.part) == []


@catches("server/bin/index-reseal", "    at = own(path)", "    at = path")
def test_a_link_in_the_place_of_its_folder_empties_no_other(tmp_path, monkeypatch, capsys):
    """The user of the index may put one beside its database, and root would remove all files of any folder."""
    (tmp_path / "other").mkdir()
    (tmp_path / "other" / "file").touch()
    os.symlink(tmp_path / "other", tmp_path / "new.db.part")
    asked = calls(monkeypatch, RESEAL, "make")
    status, _, said = ends(RESEAL, monkeypatch, capsys, tmp_path / "x.db", tmp_path / "new.db")
    assert status == 1 and "new.db.part" in said and not asked
    assert (tmp_path / "other" / "file").exists()


def test_a_link_to_a_database_is_followed_and_one_to_a_new_file_is_not(tmp_path, monkeypatch, capsys):
    os.symlink(tmp_path / "real.db", tmp_path / "link.db")
    asked = calls(monkeypatch, RESEAL, "make", lambda _, new, part: open(new, "w").close())
    ends(RESEAL, monkeypatch, capsys, tmp_path / "link.db", tmp_path / "new.db")
    assert asked == [(f"{tmp_path}/real.db", f"{tmp_path}/new.db", f"{tmp_path}/new.db.part")]


@pytest.mark.parametrize("end, said", [(None, ""), (Refused("no"), "no"), (OSError("full"), "full"),
                                       (sqlite3.DatabaseError("bad"), "sqlite3: bad")])
def test_how_it_ends_and_that_no_folder_stays(tmp_path, monkeypatch, capsys, end, said):
    db, new = tmp_path / "x.db", tmp_path / "new.db"

    def make(at, into, part):
        assert (at, into, part) == (str(db), str(new), f"{new}.part") and os.path.isdir(part)
        if end:
            raise end
        with open(into, "wb") as made:
            made.write(bytes(7))

    monkeypatch.setattr(RESEAL, "make", make)
    status, out, err = ends(RESEAL, monkeypatch, capsys, db, new)
    line = f"{new}: 7 bytes, with page sums; index-restore --complete {new} puts it in its place\n"
    assert (status, out, err) == ((1, "", f"index-reseal: {said}\n") if end else (0, line, ""))
    assert not os.path.exists(f"{new}.part")


def test_a_file_that_is_there_stays(tmp_path, monkeypatch, capsys):
    os.symlink("nowhere", tmp_path / "new.db")
    made = calls(monkeypatch, RESEAL, "make")
    assert ends(RESEAL, monkeypatch, capsys, "x", tmp_path / "new.db")[::2] == (
        1, f"index-reseal: {tmp_path}/new.db is there already\n")
    assert not made and os.path.islink(tmp_path / "new.db")


@pytest.mark.parametrize("words, status", [([], 2), (["a"], 2), (["-a", "b"], 2), (["a", "b", "c"], 2), (["-h"], 0),
                                           (["--help"], 0)])
def test_other_words_print_the_use(monkeypatch, capsys, words, status):
    monkeypatch.setattr(RESEAL, "make", raises(AssertionError))
    assert ends(RESEAL, monkeypatch, capsys, *words) == (status, RESEAL.__doc__ + "\n", "")


def test_a_new_file_is_its_owners_alone(tmp_path, monkeypatch, capsys):
    monkeypatch.setattr(RESEAL, "make", raises(Refused("no")))
    before = os.umask(0o022)
    ends(RESEAL, monkeypatch, capsys, "x", tmp_path / "new.db")
    assert os.umask(before) == 0o077


def test_a_pipe_in_the_place_of_its_folder_is_refused_at_once(tmp_path, monkeypatch, capsys):
    """Opened without O_DIRECTORY it would wait for a writer."""
    os.mkfifo(tmp_path / "new.db.part")
    made = calls(monkeypatch, RESEAL, "make")
    status, _, err = ends(RESEAL, monkeypatch, capsys, "x", tmp_path / "new.db")
    assert (status, err) == (1, f"index-reseal: [Errno 20] Not a directory: '{tmp_path}/new.db.part'\n") and not made


@pytest.mark.parametrize("end", [OSError(9, "a folder on NFS"), OSError(38, "no locks")])
def test_a_folder_that_can_t_be_locked_takes_a_new_file_all_the_same(tmp_path, monkeypatch, capsys, end):
    monkeypatch.setattr(exchange.fcntl, "flock", raises(end))
    monkeypatch.setattr(RESEAL, "make", lambda db, new, part: open(new, "w").close())
    assert ends(RESEAL, monkeypatch, capsys, "x", tmp_path / "new.db")[0] == 0
