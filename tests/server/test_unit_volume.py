"""The volume of a database as the tools read it, and how it is carried into a copy, without the program."""
import errno
import hashlib
import os
import re
import sqlite3
import struct
import tracemalloc
from contextlib import closing

import pytest
from support.library import carried, volume, volume_copies
from support.library import ends as library_ends
from support.places import TOP
from support.planted import catches
from support.server.pairs import TABLES, add_file, delete_file, make_database, make_pair, places_of, spoil
from support.unit import raises

Refused = library_ends.Refused
FILES = {"frob-1.0.tar.gz": b"one", "frob-1.1.tar.gz": b"", "frob-1.2.tar.gz": b"three" * 9}
MIB = 1 << 20


@pytest.fixture
def pair(tmp_path):
    return make_pair(f"{tmp_path}/index.db", FILES)


def bodies(db, before=None):
    with volume.tables_of(db) as tables:
        return list(volume.bodies_in(tables, before))


def wrong(db):
    with volume.volume(volume.path_of_volume(db)) as file:
        return volume.first_wrong(file, bodies(db))


@pytest.mark.parametrize("body, place", [
    (struct.pack(">QQ", 5, 7), (5, 7)), (bytes(16), (0, 0)), (bytes(15), None), (bytes(17), None), ("x" * 16, None),
    (struct.pack(">QQ", (1 << 63) - 2, 1), ((1 << 63) - 2, 1)), (struct.pack(">QQ", (1 << 63) - 1, 1), None)])
def test_a_place_is_two_numbers_of_eight_bytes(body, place):
    assert volume.place_of(body) == place and volume.size_in(body) == (place[1] if place else None)


def test_the_version_says_whether_there_is_a_volume(tmp_path, pair):
    other = make_database(f"{tmp_path}/other.db")
    (tmp_path / "text").write_text("no database")
    (tmp_path / "empty").touch()
    found = [volume.version_of(f"{it}") for it in (pair, other, tmp_path / "text", tmp_path / "empty")]
    assert found == [3, 2, None, None] and [volume.has_places(it) for it in (pair, other)] == [True, False]


def test_files_come_in_the_order_of_their_places_with_their_digests(pair):
    assert [(it.file, it.at, it.end, it.digest) for it in bodies(pair)] == [
        ("frob-1.0.tar.gz", 0, 3, hashlib.sha256(b"one").digest()),
        ("frob-1.1.tar.gz", 3, 3, hashlib.sha256(b"").digest()),
        ("frob-1.2.tar.gz", 3, 48, hashlib.sha256(b"three" * 9).digest())]


def test_the_last_end_is_that_of_rows_and_not_of_the_file(tmp_path, pair):
    with open(f"{pair}-volume", "ab") as file:
        file.write(b"of an upload that was cut off")
    with volume.tables_of(pair) as tables:
        assert volume.end_of(tables) == 48
    delete_file(pair, "frob-1.2.tar.gz")
    with volume.tables_of(pair) as tables:
        assert volume.end_of(tables) == 3
    with volume.tables_of(make_pair(f"{tmp_path}/none.db")) as tables:
        assert volume.end_of(tables) == 0


def test_what_a_log_alone_has_is_read_and_nothing_stays_beside_it(pair):
    with closing(sqlite3.connect(pair)) as tables:
        tables.execute("PRAGMA journal_mode = WAL")
        tables.execute("PRAGMA wal_autocheckpoint = 0")
        with tables:
            tables.execute("DELETE FROM blobs WHERE file = 'frob-1.2.tar.gz'")
        os.link(f"{pair}-wal", f"{pair}.kept")
    os.rename(f"{pair}.kept", f"{pair}-wal")
    assert [it.file for it in bodies(pair)] == ["frob-1.0.tar.gz", "frob-1.1.tar.gz"]
    assert sorted(os.listdir(os.path.dirname(pair))) == ["index.db", "index.db-volume", "index.db-wal"]


@catches("server/lib/package_index/volume.py", " AND its.digest = files.digest)", ")",
         also=["server/test_unit_volume_backup.py::test_after_a_restore_another_file_at_the_same_place_is_seen"])
def test_files_that_another_database_has_at_this_place_are_passed_over(tmp_path, pair):
    before = make_pair(f"{tmp_path}/before.db", FILES)
    assert bodies(pair, before) == []
    add_file(pair, "frob-1.3.tar.gz", b"four")
    assert [it.file for it in bodies(pair, before)] == ["frob-1.3.tar.gz"]
    for change in ("UPDATE blobs SET body = CAST(zeroblob(16) AS BLOB) WHERE file = 'frob-1.0.tar.gz'",
                   "UPDATE files SET digest = zeroblob(32) WHERE file = 'frob-1.2.tar.gz'"):
        with closing(sqlite3.connect(before)) as tables, tables:
            tables.execute(change)
    assert [it.file for it in bodies(pair, before)] == ["frob-1.0.tar.gz", "frob-1.2.tar.gz", "frob-1.3.tar.gz"]


@pytest.mark.parametrize("at, file", [(0, "frob-1.0.tar.gz"), (2, "frob-1.0.tar.gz"), (3, "frob-1.2.tar.gz"),
                                      (47, "frob-1.2.tar.gz")])
def test_a_byte_that_is_another_one_is_found(pair, at, file):
    assert wrong(pair) is None
    spoil(f"{pair}-volume", at)
    assert wrong(pair) == file


def test_a_volume_that_is_too_short_has_other_bytes(pair):
    os.truncate(f"{pair}-volume", 47)
    assert wrong(pair) == "frob-1.2.tar.gz"


@catches("server/lib/package_index/volume.py", "if not COPY.fullmatch(name):", "if not name:")
@pytest.mark.parametrize("target, said", [
    ("/etc/passwd", "a link to /etc/passwd"), ("index.db-volume", "a link to index.db-volume"),
    ("../index-20260101T000000Z.volume", "a link to ../index"), ("index-20260101T000000Z.volume", "not a file")])
def test_a_volume_is_a_file_beside_its_database_or_a_copy_there(tmp_path, target, said):
    os.symlink("other", tmp_path / "index-20260101T000000Z.volume")
    os.symlink(target, tmp_path / "x.db-volume")
    with pytest.raises(Refused, match=said):
        volume.path_of_volume(f"{tmp_path}/x.db")
    (tmp_path / "y.db-volume").mkdir()
    with pytest.raises(Refused, match="not a file"):
        volume.path_of_volume(f"{tmp_path}/y.db")
    with pytest.raises(Refused, match="z.db-volume: no such file, and the files of .*z.db are in it"):
        volume.path_of_volume(f"{tmp_path}/z.db")


def test_a_link_that_is_put_there_meanwhile_is_not_followed(tmp_path, pair):
    os.symlink(f"{pair}-volume", tmp_path / "link")
    with pytest.raises(OSError) as refused:
        volume.opened(f"{tmp_path}/link")
    assert refused.value.errno == errno.ELOOP


def carry(tmp_path, start, end, by=carried.carry):
    with volume.volume(f"{tmp_path}/source") as source:
        with volume.volume(f"{tmp_path}/target", os.O_RDWR | os.O_CREAT) as target:
            return by(source, target, start, end)


@pytest.mark.parametrize("start, end", [(0, 10), (4, 10), (10, 10), (3, 8)])
def test_what_is_above_a_start_is_written_anew(tmp_path, start, end):
    (tmp_path / "source").write_bytes(b"0123456789and more")
    (tmp_path / "target").write_bytes(b"abcdefghijklmnopqrstuvwxyz")
    carry(tmp_path, start, end)
    assert (tmp_path / "target").read_bytes() == b"abcdefghij"[:start] + b"0123456789"[start:end]


@catches("server/lib/package_index/carried.py", "if length < end:", "if not end:",
         also=["server/test_unit_volume_restore.py::test_a_volume_that_does_not_fit_is_refused_and_nothing_is_changed"])
def test_a_volume_that_ends_before_a_place_is_refused_and_the_copy_stays(tmp_path):
    (tmp_path / "source").write_bytes(b"0123")
    (tmp_path / "target").write_bytes(b"abcdef")
    with pytest.raises(Refused, match="the volume has 4 bytes, and the last place of the database ends at 5"):
        carry(tmp_path, 0, 5)
    assert (tmp_path / "target").read_bytes() == b"abcdef"


def with_hole(path):
    """A file of data, a hole of 8 MiB, data, and a hole at its end."""
    with open(path, "wb") as file:
        file.write(os.urandom(65536))
        file.seek(8 * MIB)
        file.write(os.urandom(65536))
        file.truncate(12 * MIB)


@catches("server/lib/package_index/carried.py", "found = data_from(source, at, end)", "found = at")
@pytest.mark.timeout(60)
@pytest.mark.parametrize("start", [0, 100_000])
def test_holes_stay_holes(tmp_path, start):
    with_hole(tmp_path / "source")
    (tmp_path / "target").write_bytes((tmp_path / "source").read_bytes()[:start])
    carry(tmp_path, start, 12 * MIB)
    assert (tmp_path / "target").read_bytes() == (tmp_path / "source").read_bytes()
    assert os.stat(tmp_path / "target").st_blocks * 512 < MIB


@catches("server/lib/package_index/carried.py", "os.fsync(target)", "pass")
def test_a_copy_is_on_the_disk(tmp_path, monkeypatch):
    synced, sync = [], os.fsync
    monkeypatch.setattr(os, "fsync", lambda it: (synced.append(os.fstat(it).st_size), sync(it)))
    (tmp_path / "source").write_bytes(b"0123456789")
    carry(tmp_path, 0, 10)
    assert synced == [10]


def copied_and_read(tmp_path, bodies, end):
    return carry(tmp_path, bodies, end, by=lambda source, target, all_of, to: carried.carry_tested(
        source, target, all_of, to))


def of_places(whole, *places):
    return [volume.Body(f"{at}-{size}", at, size, hashlib.sha256(whole[at:at + size]).digest())
            for at, size in places]


@pytest.mark.parametrize("places", [
    [], [(0, 3 * MIB)], [(0, 0), (0, 5), (5, 0), (5, 2 * MIB)], [(100, 50), (3 * MIB - 7, 7)], [(10, 100), (50, 100)],
    [(10, 1000), (50, 100)]])
def test_a_volume_is_copied_and_tested_at_once(tmp_path, places):
    whole = os.urandom(3 * MIB)
    (tmp_path / "source").write_bytes(whole + b"more")
    found = of_places(whole, *places)
    assert copied_and_read(tmp_path, found, 3 * MIB) is None
    assert (tmp_path / "target").read_bytes() == whole
    for at, body in enumerate(found):
        if body.size:
            os.remove(tmp_path / "target")
            others = [*found[:at], body._replace(digest=bytes(32)), *found[at + 1:]]
            assert copied_and_read(tmp_path, others, 3 * MIB) == body.file


def test_holes_between_files_stay_holes(tmp_path):
    with_hole(tmp_path / "source")
    whole = (tmp_path / "source").read_bytes()
    assert copied_and_read(tmp_path, of_places(whole, (5, 65000), (8 * MIB, 9)), 12 * MIB) is None
    assert (tmp_path / "target").read_bytes() == whole and os.stat(tmp_path / "target").st_blocks * 512 < MIB


def test_a_write_that_fails_is_told(tmp_path, monkeypatch):
    (tmp_path / "source").write_bytes(bytes(100))
    monkeypatch.setattr(carried, "write_at", raises(OSError(28, "No space left on device")))
    files = of_places(bytes(100), (0, 100))
    for by in (lambda: carry(tmp_path, 0, 100), lambda: copied_and_read(tmp_path, files, 100)):
        with pytest.raises(OSError, match="No space left"):
            by()


def test_a_short_write_is_gone_on_with(tmp_path, monkeypatch):
    write = os.pwrite
    monkeypatch.setattr(carried.os, "pwrite", lambda file, piece, at: write(file, piece[:7], at))
    (tmp_path / "source").write_bytes(bytes(range(100)))
    carry(tmp_path, 0, 100)
    assert (tmp_path / "target").read_bytes() == bytes(range(100))


def test_a_long_file_takes_the_memory_of_some_pieces(tmp_path):
    with open(tmp_path / "source", "wb") as file:
        file.truncate(128 * MIB)
    digest = hashlib.sha256()
    for _ in range(128):
        digest.update(bytes(MIB))
    long = volume.Body("long", 0, 128 * MIB, digest.digest())
    tracemalloc.start()
    assert copied_and_read(tmp_path, [long], 128 * MIB) is None
    with volume.volume(f"{tmp_path}/target") as file:
        assert volume.first_wrong(file, [long]) is None
    _, most = tracemalloc.get_traced_memory()
    tracemalloc.stop()
    assert most < 48 * MIB


def test_a_place_that_is_none_is_no_file_here(pair):
    with closing(sqlite3.connect(pair)) as tables, tables:
        tables.execute("UPDATE blobs SET body = x'00' WHERE file = 'frob-1.0.tar.gz'")
    assert len(bodies(pair)) == 2 and "frob-1.0.tar.gz" in FILES


def test_places_are_those_of_the_helper(pair):
    assert places_of(pair) == {it.file: (it.at, it.size) for it in bodies(pair)}


def test_the_tables_of_the_helper_are_those_of_the_index():
    with open(f"{TOP}/crates/index_sql_schema/src/table_texts.rt", encoding="utf-8") as kept:
        assert re.findall(r'"(CREATE TABLE [^"]+)"', kept.read()) == TABLES


@catches("server/lib/package_index/volume_copies.py", "except (FileNotFoundError, ValueError, KeyError, TypeError):",
         "except (FileNotFoundError, ValueError, TypeError):", case='{"inode": 7}')
@catches("server/lib/package_index/volume_copies.py", "except (FileNotFoundError, ValueError, KeyError, TypeError):",
         "except (FileNotFoundError, ValueError, KeyError):", case="[7]")
@pytest.mark.parametrize("text", ["", "{", "[7]", "7", '{"inode": 7}', '{"inode": "x", "read": 1}'], ids=str)
def test_a_note_of_a_copy_that_can_not_be_read_is_none(tmp_path, text):
    """All of the copy is read again then."""
    copy = f"{tmp_path}/copy.volume"
    assert volume_copies.note_of(copy) is None
    (tmp_path / f"copy.volume{volume_copies.NOTE}").write_text(text)
    assert volume_copies.note_of(copy) is None
