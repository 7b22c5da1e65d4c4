"""How long a start takes by arithmetic, and how far it is, without an index."""
from __future__ import annotations

import sqlite3
from contextlib import closing

import pytest
from support.library import start
from support.planted import catches
from support.unit import calls, with_time

GIB = 1 << 30


def lengthen(path, size):
    with open(path, "ab") as made:
        made.truncate(size)


def index_with(path, *live):
    """A database that has of an index what is asked: how many files each name has."""
    with closing(sqlite3.connect(path)) as db, db:
        db.execute("CREATE TABLE names (name TEXT, live INTEGER)")
        db.executemany("INSERT INTO names VALUES (?, ?)", [(f"name-{at}", it) for at, it in enumerate(live)])


# the rows of docs/operators/SCALING.md: 6 s for each GiB, 13 s for each million files, and half a second for the log
@catches("server/lib/package_index/start.py", "FOR_A_GIB, FOR_A_FILE, FOR_THE_LOG = 6.0, 13e-6, 0.5",
         "FOR_A_GIB, FOR_A_FILE, FOR_THE_LOG = 6.0, 13e-5, 0.5", case="live2-0-1-19.5")
@catches("server/lib/package_index/start.py", 'size_of(db, ("", "-wal"))', 'size_of(db, ("",))', case="live1-5-2-42.5")
@pytest.mark.parametrize("live, gib, log, seconds", [
    ([], 0, 0, 0.5), ([0, 0], 5, 2, 42.5), ([400_000, 600_000], 0, 1, 19.5)])
def test_the_seconds_of_a_start_are_those_of_its_length_and_its_files(tmp_path, live, gib, log, seconds):
    db = f"{tmp_path}/index.db"
    index_with(db, *live)
    # (SQLite reads a file that is longer than its pages)
    if gib:
        lengthen(db, gib * GIB)
    lengthen(f"{db}-wal", log * GIB)
    assert start.seconds_of_start(db) == pytest.approx(seconds, abs=0.01)


@pytest.mark.parametrize("text", [b"", b"no database", b"SQLite format 3\0" + bytes(4080)])
def test_a_database_that_can_t_be_read_is_reckoned_by_its_length(tmp_path, text):
    (tmp_path / "index.db").write_bytes(text)
    assert start.seconds_of_start(f"{tmp_path}/index.db") == pytest.approx(0.5, abs=0.01)
    assert start.seconds_of_start(f"{tmp_path}/none.db") == 0.5


class Under:
    """A start on a database of 4 GiB, at a clock, beside a count of the seconds of a processor."""

    def __init__(self, monkeypatch, tmp_path, *used):
        self.now, self.used = 1000.0, list(used)
        with_time(monkeypatch, start, monotonic=lambda: self.now)
        calls(monkeypatch, start, "processor_seconds", lambda: self.used.pop(0))
        lengthen(f"{tmp_path}/index.db", 4 * GIB)
        self.start = start.Start(f"{tmp_path}/index.db")

    def said(self, seconds):
        self.now = 1000.0 + seconds
        return self.start.how_far()


@catches("server/lib/package_index/start.py", "while self.due <= passed:", "if False:")
@catches("server/lib/package_index/start.py", "{used - self.before:.0f}", "{used:.0f}")
def test_it_says_how_far_it_is_after_ten_seconds_and_then_ever_more_seldom(monkeypatch, tmp_path):
    under = Under(monkeypatch, tmp_path, 100.0, 103.0, 118.4, 140.0)
    said = {at: under.said(at) for at in (0, 9.9, 10, 10.2, 19.9, 20, 39, 75, 79.9)}
    assert {at: text for at, text in said.items() if text} == {
        10: "starting for 0:10: 3 of about 24 s of a processor are used",
        20: "starting for 0:20: 18 of about 24 s of a processor are used",
        75: "starting for 1:15: 40 of about 24 s of a processor are used"}
    assert not under.used


@pytest.mark.parametrize("used", [(None, 1.0), (1.0, None)])
def test_where_nothing_counts_a_processor_it_says_the_time(monkeypatch, tmp_path, used):
    assert Under(monkeypatch, tmp_path, *used).said(100) == "starting for 1:40, of about 24 s of a processor"


# as systemd 252 and Linux 6.1 have them: Documentation/admin-guide/cgroup-v2.rst
STAT = "usage_usec 2500000\nuser_usec 2000000\nsystem_usec 500000\n"


@catches("server/lib/package_index/start.py", '["usage_usec"]', '["user_usec"]', case="unified")
@pytest.mark.parametrize("own, seconds", [
    ("0::/system.slice/a.service\n", 2.5), ("1:name=systemd:/x\n0::/system.slice/a.service\n", 2.5),
    ("0::/\n", None), ("1:cpu:/system.slice/a.service\n", None), ("", None)],
    ids=["unified", "hybrid", "root", "old", "none"])
def test_the_control_group_of_the_unit_counts_its_processor(monkeypatch, tmp_path, own, seconds):
    (tmp_path / "cgroup").write_text(own)
    group = tmp_path / "groups/system.slice/a.service"
    group.mkdir(parents=True)
    (group / "cpu.stat").write_text(STAT)
    monkeypatch.setattr(start, "OWN_GROUP", f"{tmp_path}/cgroup")
    monkeypatch.setattr(start, "GROUPS", f"{tmp_path}/groups")
    assert start.processor_seconds() == seconds


def test_without_a_count_that_can_be_read_there_are_no_seconds(monkeypatch, tmp_path):
    (tmp_path / "cgroup").write_text("0::/a\n")
    (tmp_path / "a").mkdir()
    monkeypatch.setattr(start, "OWN_GROUP", f"{tmp_path}/cgroup")
    monkeypatch.setattr(start, "GROUPS", f"{tmp_path}")
    for text in ("", "user_usec 1\n", "usage_usec x\n", "usage_usec\n"):
        (tmp_path / "a/cpu.stat").write_text(text)
        assert start.processor_seconds() is None
    monkeypatch.setattr(start, "OWN_GROUP", f"{tmp_path}/none")
    assert start.processor_seconds() is None
