"""Backups, restores and migrations of an index with a volume, by the built program."""
import glob
import os
import shutil
import struct
import time

import pytest
from support.library import volume
from support.needed import want_command
from support.places import BIN
from support.planted import catches
from support.running import run_command
from support.server.expected import assert_ends
from support.server.pasted import block
from support.server.stand_ins import stand_ins
from support.server.waits import wait_for
from support.serving import OFFICE, Index, accepted, free_port, make_index

# each runs several programs, and starts an index again and again
pytestmark = pytest.mark.slow
FILE = "frob-1.{}.tar.gz"


@pytest.fixture
def places(folder):
    for name in ("var", "backups", "cache"):
        os.mkdir(f"{folder}/{name}")
    return folder


def make(program, path, *more):
    assert_ends(run_command([program, "init", "--db", path, *OFFICE, *more]), 0, "created")
    return path


@pytest.fixture
def pair(program, places):
    return make(program, f"{places}/var/index.db", "--volume")


def uploaded(index, chance, begin, number):
    """Uploads so many files, the first of no byte. Returns them."""
    if begin == 0:
        accepted(index.claim("frob"))
    files = {FILE.format(begin + at): chance.randbytes(9_000 * at) for at in range(number)}
    for file, body in files.items():
        accepted(index.upload("frob", file, body))
    return files


def delete(index, file):
    accepted(index.ask("DELETE", f"/files/frob/{file}", X_Index_Token="office"))


def served(program, path, files):
    """Whether an index of this database has these files."""
    with Index(program, path=path) as index:
        return all(index.ask("GET", f"/files/frob/{it}")[::2] == (200, body) for it, body in files.items())


def backup(program, path, places):
    """A backup of another second than those before, by which it is named."""
    last = max((os.path.basename(it) for it in kept(places)), default="")
    assert wait_for(lambda: time.strftime("index-%Y%m%dT%H%M%SZ.db", time.gmtime()) > last, 60)
    return run_command([f"{BIN}/index-backup", path, f"{places}/backups"], INDEX=program)


def kept(places):
    return [f"{places}/backups/{it}" for it in sorted(os.listdir(f"{places}/backups")) if it.endswith(".db")]


def restore(program, path, copy, places, *more):
    """Restores an index that is started afterwards."""
    words = [f"{BIN}/index-restore", copy, "--db", path, "--unit", "none", "--url", f"http://127.0.0.1:{free_port()}",
             "--cache", f"{places}/cache", "--changes", f"{places}/none.log", "--with-pypi", f"{places}/none.conf",
             *more]
    return run_command(words, INDEX=program)


def migrate(program, path, way):
    want_command("sqlite3", "sqlite3")
    return run_command([f"{BIN}/index-migrate", way, path], INDEX=program)


@catches("server/bin/index-verify", '"check", "--db", path, *volume_words(path))', '"check", "--db", path)')
def test_a_pair_is_copied_while_it_serves_and_each_copy_serves(program, pair, places, chance):
    with Index(program, path=pair) as index:
        first = uploaded(index, chance, 0, 5)
        assert_ends(backup(program, pair, places), 0, "bytes added to")
        more = uploaded(index, chance, 5, 3)
        delete(index, FILE.format(1))
        assert_ends(backup(program, pair, places), 0, "; 27000 bytes added to")
    old, new = kept(places)
    copies = {os.path.realpath(f"{it}-volume") for it in (old, new)}
    assert len(copies) == 1 and os.path.getsize(copies.pop()) == 90_000 + 27_000
    for copy in (old, new):
        assert_ends(run_command([f"{BIN}/index-verify", copy], INDEX=program), 0)
    assert not [it for it in os.listdir(f"{places}/backups") if "volume-wal" in it or "part" in it]
    assert_ends(restore(program, pair, new, places), 0, "start the index now")
    assert served(program, pair, {it: body for it, body in {**first, **more}.items() if it != FILE.format(1)})
    assert_ends(restore(program, pair, old, places, "--older"), 0, "start the index now")
    assert served(program, pair, first)


def test_a_pair_that_is_put_back_goes_on_and_its_backup_begins_a_new_copy(program, pair, places, chance):
    with Index(program, path=pair) as index:
        first = uploaded(index, chance, 0, 3)
        assert_ends(backup(program, pair, places), 0)
        uploaded(index, chance, 3, 3)
    copy, = kept(places)
    assert_ends(restore(program, pair, copy, places), 0)
    with Index(program, path=pair) as index:
        other = {FILE.format(3): chance.randbytes(500), FILE.format(4): chance.randbytes(9_000)}
        for file, body in other.items():
            accepted(index.upload("frob", file, body))
        assert_ends(backup(program, pair, places), 0)
    assert len([it for it in os.listdir(f"{places}/backups") if it.endswith(".volume")]) == 2
    for it, files in zip(kept(places), (first, {**first, **other})):
        assert_ends(run_command([f"{BIN}/index-verify", it], INDEX=program), 0)
        assert len(files) == len(rows(it, "blobs"))


def rows(path, table):
    with volume.tables_of(path) as tables:
        return tables.execute(f"SELECT * FROM {table} ORDER BY 1").fetchall()


@catches("server/bin/index-backup", "os.path.realpath(words.db)", "words.db")
@pytest.mark.parametrize("more", [(), ("--volume",)], ids=["one_file", "volume"])
def test_a_backup_by_a_link_has_what_is_beside_the_database(program, places, chance, more):
    path = make(program, f"{places}/var/index.db", *more)
    os.symlink(path, f"{places}/link.db")
    with Index(program, path=path) as index:
        uploaded(index, chance, 0, 4)
        assert_ends(backup(program, f"{places}/link.db", places), 0)
    assert len(rows(*kept(places), "blobs")) == 4


@catches("server/bin/index-backup", "if has_places(part):", 'if os.path.exists(f"{db}{VOLUME}"):')
@catches("server/bin/index-verify", "found = path_of_volume(path)", 'found = ""')
def test_a_volume_that_lies_elsewhere_is_to_be_moved_beside_its_database(program, places, chance):
    path = make(program, f"{places}/var/index.db", "--volume", f"{places}/elsewhere")
    said = f"{path}-volume: no such file, and the files of {path} are in it: put it there"
    assert_ends(backup(program, path, places), 1, said)
    assert_ends(migrate(program, path, "--one-file"), 1, said)
    assert_ends(run_command([f"{BIN}/index-verify", path], INDEX=program), 1, said)
    assert os.listdir(f"{places}/backups") == [] and not glob.glob(f"{places}/var/before-*")
    os.rename(f"{places}/elsewhere", f"{path}-volume")
    with Index(program, path=path) as index:
        uploaded(index, chance, 0, 3)
        assert_ends(backup(program, path, places), 0, "27000 bytes added to")


@catches("server/lib/package_index/migrated.py", '"UPDATE main.meta SET version = ?", (version,)',
         '"UPDATE main.meta SET version = ?", (5 - version,)')
@pytest.mark.parametrize("sums", [(), ("--page-sums",)], ids=["plain", "sums"])
def test_an_index_is_moved_there_and_back(program, places, chance, sums):
    path = make(program, f"{places}/var/index.db", *sums)
    with Index(program, path=path) as index:
        files = uploaded(index, chance, 0, 6)
        delete(index, FILE.format(5))
        delete(index, FILE.format(4))
        accepted(index.request(do="ban_file", file=FILE.format(4)))
        accepted(index.request(do="yank", name="frob", release="1.2", reason="broken"))
        assert_ends(migrate(program, path, "--volume"), 1, "another program still has it open")
    left = {it: files[it] for it in (FILE.format(at) for at in range(4))}
    tables = {it: rows(path, it) for it in ("users", "names", "owners", "files", "yanks", "cases", "bans")}
    assert_ends(migrate(program, path, "--volume"), 0, "index.db-volume; what was there is in ")
    assert served(program, path, left) and {it: rows(path, it) for it in tables} == tables
    with Index(program, path=path) as index:
        accepted(index.upload("frob", "frob-2.0.tar.gz", b"new"))
        assert_ends(backup(program, path, places), 0)
        assert index.upload("frob", FILE.format(4), files[FILE.format(4)])[0] != 201
    assert_ends(migrate(program, path, "--volume"), 0, " already")
    assert_ends(migrate(program, path, "--one-file"), 0, "itself; what was there is in ")
    assert not os.path.exists(f"{path}-volume")
    assert served(program, path, {**left, "frob-2.0.tar.gz": b"new"})
    assert rows(path, "yanks") == tables["yanks"] and rows(path, "bans") == tables["bans"]


@catches("server/lib/package_index/migrated.py", '*room, "VACUUM")', '*room, "PRAGMA page_size = 65536", "VACUUM")')
def test_a_migrated_database_is_as_long_as_a_new_one_with_its_rows(program, places, chance):
    bodies = [chance.randbytes(200) for _ in range(300)]
    paths = make(program, f"{places}/var/index.db"), make(program, f"{places}/new.db", "--volume")
    for path in paths:
        with Index(program, path=path) as index:
            accepted(index.claim("frob"))
            for at, body in enumerate(bodies):
                accepted(index.upload("frob", FILE.format(at), body))
    assert_ends(migrate(program, paths[0], "--volume"), 0)
    # its log is brought into it
    assert_ends(run_command([program, "check", "--db", paths[1]]), 0)
    moved, new = (os.path.getsize(it) for it in paths)
    assert moved <= 1.1 * new, (moved, new)
    assert [struct.unpack(">QQ", body)[1] for _, body in rows(paths[0], "blobs")] == [200] * 300


def test_the_volume_of_another_pair_is_refused_and_the_index_stays(program, pair, places, chance):
    other = make(program, f"{places}/other.db", "--volume")
    for path in (other, pair):
        with Index(program, path=path) as index:
            files = uploaded(index, chance, 0, 3)
            assert_ends(backup(program, path, places), 0)
    first, last = (os.path.realpath(f"{it}-volume") for it in kept(places))
    os.replace(first, last)
    ended = run_command([f"{BIN}/index-restore", kept(places)[-1], "--db", pair, "--unit", "none"], INDEX=program)
    assert_ends(ended, 1, "is not the volume of ", "has other bytes there")
    assert served(program, pair, files) and os.listdir(f"{places}/var") != []


def test_the_block_of_an_upgrade_checks_a_copy_with_its_volume(program, pair, places, chance):
    """And without one, of an index that has none. What an opening leaves is gone after the next backup."""
    plain = make_index(program, f"{places}/var/plain.db")
    os.makedirs(f"{places}/new/usr/bin")
    shutil.copy(program, f"{places}/new/usr/bin/index")
    found = stand_ins(f"{places}/bin", systemctl="", **{"dpkg-deb": f"tar -cC {places}/new ./usr/bin/index"})
    text = block("new=").replace("/var/backups/index", f"{places}/backups")
    with Index(program, path=pair) as index:
        uploaded(index, chance, 0, 3)
        for path, schema in ((pair, 3), (plain, 2)):
            assert_ends(backup(program, path, places), 0)
            ended = run_command(["bash", "-c", text], PATH=found)
            assert_ends(ended, 0, f"schema {schema} becomes {schema}")
    assert_ends(backup(program, pair, places), 0, "; 0 bytes added to ")
    assert not [it for it in os.listdir(f"{places}/backups") if "wal" in it or it == "try"]


@catches("server/bin/index-backup", "if has_places(part):", "if db:")
def test_without_a_volume_no_file_is_made(program, places, chance):
    path = make_index(program, f"{places}/var/index.db")
    with Index(program, path=path) as index:
        uploaded(index, chance, 0, 2)
        assert_ends(backup(program, path, places), 0)
    copy, = os.listdir(f"{places}/backups")
    assert copy.endswith("Z.db")
