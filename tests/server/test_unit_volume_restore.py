"""index-restore of a database with a volume, or over one, and index-verify of such a copy. A stand-in is in the place
of the program."""
import os
import shutil
import sqlite3
import types
from contextlib import closing

import pytest
from support.library import exchange, volume_copies
from support.library import ends as library_ends
from support.library import units as library_units
from support.planted import catches
from support.programs import program_of
from support.running import run_command
from support.places import BIN
from support.server.pairs import add_file, files_of, make_database, make_pair, spoil
from support.server.stand_ins import called, stand_ins

RESTORE = program_of("index-restore")
Refused = library_ends.Refused
OLD = {"frob-1.0.tar.gz": b"one" * 100, "frob-1.1.tar.gz": b"two" * 100}
NEW = {**OLD, "frob-1.2.tar.gz": b"three"}


class World:
    """The database of an index, with a volume or without, a folder of copies, and commands that only note."""

    def __init__(self, tmp_path, monkeypatch, version=3):
        self.var, self.copies, self.bin = f"{tmp_path}/var", f"{tmp_path}/copies", f"{tmp_path}/bin"
        os.mkdir(self.var)
        os.mkdir(self.copies)
        self.db = make_database(f"{self.var}/index.db", NEW, version)
        self.order, self.run = [], RESTORE.run
        stand_ins(self.bin, index="")
        monkeypatch.setenv("INDEX", f"{self.bin}/index")
        monkeypatch.setattr(RESTORE, "run", self.do)
        monkeypatch.setattr(library_units, "run", self.do)
        monkeypatch.setattr(library_units, "shown", lambda *_: "")
        monkeypatch.setattr(RESTORE, "ignore_signals", lambda: None)
        monkeypatch.setattr(RESTORE, "empty_cache", lambda it: None)
        monkeypatch.setattr(RESTORE, "look_at_index", lambda *_: None)
        monkeypatch.setattr(RESTORE, "first_answer", lambda url, length: url)

    def do(self, *words):
        self.order.append(words)
        return self.run(*words) if words[0].endswith("index-verify") else ""

    def copy(self, files=None, version=3):
        """A kept database, with a link to a copy of its volume."""
        path = make_database(f"{self.copies}/index-20260101T000000Z.db", OLD if files is None else files, version)
        if version == 3:
            os.rename(f"{path}-volume", f"{path[:-3]}.volume")
            volume_copies.put_link(path, f"{path[:-3]}.volume")
        return path

    def restore(self, copy):
        words = types.SimpleNamespace(copy=copy, older=True, complete=False, new=False, url="http://x:1", cache=["/c"],
                                      db=RESTORE.DB, unit=None, changes=["/none"], with_pypi="/none/pypi.conf")
        RESTORE.restore(words, self.db, RESTORE.Units(["a.service"]))

    def aside(self):
        return [f"{self.var}/{it}/index.db" for it in sorted(os.listdir(self.var)) if it.startswith("before")]

    def names(self):
        return sorted(it for it in os.listdir(self.var) if not it.startswith("before"))


@pytest.fixture
def world(tmp_path, monkeypatch):
    return World(tmp_path, monkeypatch)


def test_a_pair_is_put_in_place_and_the_old_one_aside(world):
    world.restore(world.copy())
    assert files_of(world.db) == OLD and world.names() == ["index.db", "index.db-volume"]
    aside, = world.aside()
    assert files_of(aside) == NEW and os.stat(f"{aside}-volume").st_nlink == 1
    assert os.stat(f"{world.db}-volume").st_mode & 0o777 == 0o600 and not os.path.islink(f"{world.db}-volume")
    world.restore(aside)
    assert files_of(world.db) == NEW and [files_of(it) for it in world.aside()][-1] == OLD


@catches("server/bin/index-restore", 'run(f"{HERE}/index-verify", *read, made)', 'run(f"{HERE}/index-verify", made)')
def test_bytes_are_read_once_and_before_the_index_stops(world):
    """By a copy that is tested while it is written; index-verify reads the rows."""
    world.restore(world.copy())
    verify, stop = world.order[:2]
    assert verify[1] == "--since" and verify[2] == verify[3] and stop == ("systemctl", "stop", "a.service")


def test_no_more_is_copied_than_the_database_has(world):
    copy = world.copy()
    with open(f"{copy[:-3]}.volume", "ab") as file:
        file.write(b"of later databases")
    world.restore(copy)
    assert os.path.getsize(f"{world.db}-volume") == 600


def test_holes_of_what_was_deleted_stay_holes(world):
    copy = make_pair(f"{world.copies}/index-20260101T000000Z.db", {"frob-1.0.tar.gz": b"one"})
    with open(f"{copy}-volume", "ab") as file:
        file.truncate(8 << 20)
    add_file(copy, "frob-1.1.tar.gz", b"two")
    world.restore(copy)
    assert files_of(world.db) == {"frob-1.0.tar.gz": b"one", "frob-1.1.tar.gz": b"two"}
    assert os.stat(f"{world.db}-volume").st_blocks * 512 < 1 << 20


@catches("server/lib/package_index/volume_beside.py", "if wrong:", "if not source:",
         also=["server/test_volumes.py::test_the_volume_of_another_pair_is_refused_and_the_index_stays"])
@pytest.mark.parametrize("does, said", [
    (lambda path: spoil(path, 0), "is not the volume of .*, or was damaged: frob-1.0.tar.gz has other bytes"),
    (lambda path: spoil(path, 599), "is not the volume of .*, or was damaged: frob-1.1.tar.gz has other bytes"),
    (lambda path: os.truncate(path, 599), "has 599 bytes, and the last place of the database ends at 600"),
    (os.remove, "no such file, and the files of .* are in it")])
def test_a_volume_that_does_not_fit_is_refused_and_nothing_is_changed(world, does, said):
    copy = world.copy()
    does(f"{copy[:-3]}.volume")
    with pytest.raises(Refused, match=said):
        world.restore(copy)
    assert files_of(world.db) == NEW and world.names() == ["index.db", "index.db-volume"] and not world.aside()
    assert not world.order


@pytest.mark.parametrize("own, version, names", [
    (2, 3, ["index.db", "index.db-volume"]), (3, 2, ["index.db"]), (2, 2, ["index.db"])])
def test_a_volume_goes_and_comes_with_its_database(tmp_path, monkeypatch, own, version, names):
    world = World(tmp_path, monkeypatch, own)
    world.restore(world.copy(version=version))
    assert files_of(world.db) == OLD and world.names() == names
    aside, = world.aside()
    assert files_of(aside) == NEW and os.path.exists(f"{aside}-volume") == (own == 3)


def test_the_log_that_an_opening_leaves_beside_a_volume_goes_with_it(world):
    open(f"{world.db}-volume-wal", "w").close()
    world.restore(world.copy(version=2))
    aside, = world.aside()
    assert world.names() == ["index.db"] and os.path.exists(f"{aside}-volume-wal")


def test_room_is_wanted_for_the_volume(world, monkeypatch):
    asked, copy = [], world.copy()
    with open(f"{copy[:-3]}.volume", "ab") as file:
        file.truncate(1 << 40)
    monkeypatch.setattr(RESTORE, "want_room", lambda *words: asked.append(words))
    world.restore(copy)
    blocks = os.stat(f"{copy[:-3]}.volume").st_blocks * 512
    assert asked == [(world.var, os.path.getsize(copy) + blocks)] and 600 <= blocks < 1 << 20


def test_while_a_backup_is_made_no_pair_is_restored(world):
    copy = world.copy()
    with exchange.alone(world.var, "x"):
        with pytest.raises(Refused, match=f"another {exchange.AT_WORK} is at work there"):
            world.restore(copy)


class Killed(BaseException):
    """The program ended here, and tidied nothing up."""


CALLS = ["link", "remove", "rename"]


@catches("server/lib/package_index/exchange.py", "        remove_volume_of(made, db)", "        pass")
@pytest.mark.parametrize("own", [2, 3])
@pytest.mark.parametrize("version", [2, 3])
def test_killed_at_each_step_of_the_exchange_the_same_command_finishes_or_begins_again(tmp_path, monkeypatch, own,
                                                                                      version):
    seen = []
    for step in range(40):
        (tmp_path / f"{step}").mkdir()
        world = World(tmp_path / f"{step}", monkeypatch, own)
        copy, left = world.copy(version=version), [step]
        with monkeypatch.context() as killed:
            for name in CALLS:
                def call(*words, real=getattr(os, name), **more):
                    if any("/var/" in str(it) for it in words[:2]):
                        left[0] -= 1
                        if left[0] == 0:
                            raise Killed
                    return real(*words, **more)

                killed.setattr(exchange.os, name, call)
            killed.setattr(RESTORE.shutil, "rmtree", lambda *_, **__: None)
            killed.setattr(RESTORE, "forget", lambda *_: None)
            try:
                world.restore(copy)
            except Killed:
                pass
        files = files_of(world.db) if os.path.exists(world.db) else None
        seen.append(files)
        world.restore(copy)
        assert files_of(world.db) == OLD, step
        assert world.names() == ["index.db", "index.db-volume"][:1 + (version == 3)], step
        assert [files_of(it) for it in world.aside()] == [NEW], step
        if left[0] > 0:
            break
    assert NEW in seen and None in seen and seen[-1] == OLD and all(it in (OLD, NEW, None) for it in seen)


@catches("server/lib/package_index/exchange.py",
         'if not is_there(db) and is_there(made) and not is_there(f"{made}{VOLUME}") and has_places(made):',
         "if not is_there(db) and is_there(made):")
def test_an_orphaned_volume_is_not_taken_for_that_of_a_copy(world):
    """The database is lost, and a restore is killed at once: the bytes of all files stay."""
    os.remove(world.db)
    beside, aside = f"{world.var}/restoring-1", f"{world.var}/before-1"
    os.mkdir(aside)
    for version in (2, 3):
        os.makedirs(beside)
        made = make_database(f"{beside}/index.db", OLD, version)
        assert exchange.put_names_back(world.db, aside, made) and os.path.exists(f"{world.db}-volume")
        shutil.rmtree(beside)
        os.makedirs(aside, exist_ok=True)


@pytest.fixture
def verify(tmp_path):
    stand_ins(f"{tmp_path}/bin", index="")

    def run(*words):
        ended = run_command([f"{BIN}/index-verify", *words], INDEX=f"{tmp_path}/bin/index")
        return ended.returncode, ended.stdout
    return run


def test_all_files_of_a_pair_are_read_or_those_that_came_since(tmp_path, verify):
    before = make_pair(f"{tmp_path}/before.db", OLD)
    pair = make_pair(f"{tmp_path}/pair.db", NEW)
    assert verify(pair) == (0, "") and verify("--since", before, pair) == (0, "")
    spoil(f"{pair}-volume", 0)
    told = f"index-verify: {pair}: {pair}-volume: bytes that don't have the digest of their file: "
    assert verify(pair) == (3, f"{told}frob-1.0.tar.gz\n") and verify("--since", before, pair) == (0, "")
    spoil(f"{pair}-volume", 600)
    assert verify("--since", before, pair) == (3, f"{told}frob-1.2.tar.gz\n")
    assert called(f"{tmp_path}/bin").splitlines() == [f"index check --db {pair}"] * 5


def test_a_database_that_can_not_be_read_has_all_read(tmp_path, verify):
    pair = make_pair(f"{tmp_path}/pair.db", NEW)
    (tmp_path / "before.db").write_bytes(b"no database" * 999)
    spoil(f"{pair}-volume", 0)
    for before in ("before.db", "none.db"):
        assert verify("--since", f"{tmp_path}/{before}", pair)[0] == 3
    assert not (tmp_path / "none.db").exists()


def test_a_wrong_row_of_a_pair_comes_first(tmp_path, verify):
    pair = make_pair(f"{tmp_path}/pair.db", NEW)
    spoil(f"{pair}-volume", 0)
    with closing(sqlite3.connect(pair)) as tables, tables:
        tables.execute("UPDATE files SET size = 4 WHERE file = 'frob-1.2.tar.gz'")
    told = f"index-verify: {pair}: a place that is none, or has not as many bytes as its file: frob-1.2.tar.gz\n"
    assert verify(pair) == (1, told)


def test_the_empty_log_of_an_opening_goes(tmp_path, verify):
    pair = make_pair(f"{tmp_path}/pair.db", NEW)
    (tmp_path / "pair.db-volume-wal").touch()
    assert verify(pair)[0] == 0 and not (tmp_path / "pair.db-volume-wal").exists()
