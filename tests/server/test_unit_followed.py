"""A log that is followed: how often it is looked at, and what was rotated away."""
import contextlib
import datetime
import gzip
import json
import os

import pytest
from support.library import changes, followed
from support.planted import catches
from support.unit import raises, with_time


def test_a_log_that_has_nothing_new_is_looked_at_after_a_pause(tmp_path, monkeypatch):
    slept, path = [], str(tmp_path / "log")
    with_time(monkeypatch, followed, sleep=slept.append)
    lines = followed.lines_from(path, None)
    assert [next(lines) for _ in range(3)] == 3 * [("", None)] and slept == 2 * [followed.PAUSE]
    with open(path, "w") as log:
        log.write("a\nb\n")
    assert [next(lines)[0] for _ in range(5)] == ["a\n", "b\n", "", "", ""] and slept == 5 * [followed.PAUSE]
    # one that was rotated away is read to its end, and the next begun without a pause
    os.rename(path, f"{path}.1")
    with open(path, "w") as log:
        log.write("c\n")
    assert [next(lines)[0] for _ in range(3)] == ["", "c\n", ""] and slept == 6 * [followed.PAUSE]


@pytest.mark.parametrize("known, lines", [(0, ["b", "c"]), (1, ["c"]), (2, []), (None, ["a", "b", "c"])])
def test_only_logs_that_were_rotated_away_since_are_read(tmp_path, known, lines):
    """The log itself is followed, and not read here."""
    names = "x.log.3", "x.log.2", "x.log.1", "x.log"
    for at, (name, line) in enumerate(zip(names, "abcd")):
        (tmp_path / name).write_text(f"{line}\n")
        os.utime(tmp_path / name, (at, at))
    inode = -1 if known is None else os.stat(tmp_path / names[known]).st_ino
    assert [it.strip() for it in followed.rotated_since(str(tmp_path / "x.log"), inode)] == lines


@catches("server/lib/package_index/log_place.py", "if os.path.isfile(it)), key=lambda it: age(log, it))",
         "if os.path.isfile(it)), key=os.path.getmtime)")
@pytest.mark.parametrize("known, lines", [("x.log.2", ["c"]), ("x.log-20260101", ["a", "c"]), ("x.log.1", [])])
def test_what_was_rotated_away_after_the_clock_was_set_back_is_read(tmp_path, known, lines):
    """What was written last is the oldest then. A log that logrotate names by its date has no number."""
    written = ("x.log.1", "c"), ("x.log", "d"), ("x.log.2", "a"), ("x.log-20260101", "b")
    for moment, (name, line) in enumerate(written):
        (tmp_path / name).write_text(f"{line}\n")
        os.utime(tmp_path / name, (moment, moment))
    found = followed.rotated_since(str(tmp_path / "x.log"), os.stat(tmp_path / known).st_ino)
    assert [it.strip() for it in found] == lines


@pytest.mark.parametrize("at, read, left", [(0, 2, b"b\n"), (1, 2, b"d\n"), (1, 4, b""), (1, 5, None), (1, 0, None)])
def test_a_log_is_read_from_its_place_on_though_it_was_rotated_away(tmp_path, at, read, left):
    """One of which nothing was read is not known again."""
    names = "x.log.1", "x.log"
    for moment, (name, lines) in enumerate(zip(names, ("a\nb\n", "c\nd\n"))):
        (tmp_path / name).write_text(lines)
        os.utime(tmp_path / name, (moment, moment))
    place = place_at(tmp_path / names[at], read)
    with followed.left_at(str(tmp_path / "x.log"), place) or contextlib.nullcontext() as log:
        assert (log.read() if log else None) == left
    assert followed.left_at(str(tmp_path / "x.log"), None) is None


@catches("server/lib/package_index/followed.py", "if not REFUSED.search(line):", "if line:",
         ("server/lib/package_index/log_place.py", "return found[1] if found else LOG", "return LOG"),
         also=["server/test_unit_log_place.py::test_the_log_is_where_nginx_writes_it",
               "server/test_unit_log_setting.py::test_the_follower", "server/test_unit_log_setting.py::test_the_alarms",
               "server/test_unit_log_setting.py::test_a_restore", "server/test_unit_log_setting.py::test_the_history"])
def test_a_change_that_was_refused_takes_nothing_out_and_is_no_line(tmp_path):
    """But the place is behind it. Those of an attacker may be millions."""
    lines = [f'{{"status":{it},"body":"{{}}"}}\n' for it in (200, 401, 403, 500, 404)]
    (tmp_path / "x.log").write_text("".join(lines))
    found = followed.lines_from(str(tmp_path / "x.log"), None)
    assert [next(found) for _ in range(2)][1][0] == lines[3]
    line, place = next(found)
    assert line == "" and place.read == len("".join(lines))
    found.close()


def place_at(path, read):
    with open(path, "rb") as log:
        log.seek(read)
        place = followed.place_of(log)
    return place if os.path.getsize(path) >= read else place._replace(digest="of what is gone")


class Waits(Exception):
    """There are no lines now."""


def lines_until_a_wait(monkeypatch, found):
    with_time(monkeypatch, followed, sleep=raises(Waits()))
    lines = []
    with pytest.raises(Waits):
        for line, _ in found:
            lines += [line.strip()] if line else []
    return lines


@catches("server/lib/package_index/followed.py", "        if digest_at(log, place.read) == place.digest:",
         "        if os.stat(each).st_ino == place.inode:")
@pytest.mark.parametrize("old, lines", [("x.log.2", "bqcde"), ("x.log.2.gz", "abqcde")])
def test_a_new_log_with_the_inode_of_an_old_one_is_read_from_its_start(monkeypatch, tmp_path, old, lines):
    """ext4 gives the inode of a log that logrotate compressed to the next one. All of a compressed one is read."""
    log = tmp_path / "x.log"
    log.write_text("a\nb\n")
    place = place_at(log, 2)
    (tmp_path / old).write_bytes(gzip.compress(log.read_bytes()) if old.endswith("gz") else log.read_bytes())
    (tmp_path / "x.log.1").write_text("q\n")
    for moment, name in enumerate((old, "x.log.1")):
        os.utime(tmp_path / name, (moment, moment))
    log.write_text("c\nd\ne\n")
    assert os.stat(log).st_ino == place.inode
    assert lines_until_a_wait(monkeypatch, followed.lines_from(str(log), place)) == list(lines)


@catches("server/lib/package_index/followed.py", "        if digest_at(log, place.read) != place.digest:",
         "        if os.fstat(log.fileno()).st_size < place.read:")
def test_a_log_that_was_copied_and_emptied_loses_no_line(monkeypatch, tmp_path):
    """logrotate's copytruncate: the copy has a line that was not read yet, and the log is as long as before again."""
    log, copy = tmp_path / "x.log", tmp_path / "x.log.1"
    log.write_text("a\n")
    found = followed.lines_from(str(log), None)
    assert [next(found)[0] for _ in range(2)] == ["a\n", ""]
    copy.write_text("a\nb\n")
    log.write_text("c\n")
    with_time(monkeypatch, followed, sleep=lambda _: None)
    assert [next(found)[0] for _ in range(2)] == ["b\n", "c\n"]
    found.close()


@pytest.fixture(params=["cut", "overwritten", "no gzip"])
def damaged(request, tmp_path, chance):
    """A log, of which the part that was compressed is damaged. Its lines have a sign at which splitlines() ends one:
    such signs may stand behind a damage too."""
    lines = [json.dumps({"at": "2026-11-01T00:00:00+00:00", "body": f"{chance.randbytes(60).hex()}\u2028"},
                        ensure_ascii=False) + "\n" for _ in range(999)]
    packed = gzip.compress("".join(lines).encode())
    there = {"cut": packed[:-9000], "overwritten": packed[:30000] + bytes(90) + packed[30090:], "no gzip": b"x"}
    for moment, (name, data) in enumerate((("x.log.2.gz", there[request.param]), ("x.log.1", lines[0].encode()))):
        (tmp_path / name).write_bytes(data)
        os.utime(tmp_path / name, (moment, moment))
    (tmp_path / "x.log").touch()
    return str(tmp_path / "x.log")


@catches("server/lib/package_index/changes.py", "        except (EOFError, zlib.error, gzip.BadGzipFile) as end:",
         "        except KeyError as end:", also=["test_a_damaged_log_is_followed_by_the_next"])
def test_a_damaged_log_is_told_and_loses_no_other_line(damaged, tmp_path):
    since = datetime.datetime(2026, 11, 1, tzinfo=datetime.timezone.utc)
    said = changes.changes_since([damaged], since, f"{tmp_path}/made").split("\n   ")
    *made, rest = (tmp_path / "made").read_text().split("\n")
    assert said[0].startswith(f"nginx passed on {len(made) - 1} of them") and len(said) == 2 and not rest
    assert said[1].startswith(f"{damaged}.2.gz: ") and said[1].endswith("no more of this log can be read")
    assert made[-2] == said[1] and json.loads(made[-1])["at"]


def test_a_damaged_log_is_followed_by_the_next(damaged):
    lines = list(followed.rotated_since(damaged, 0))
    assert changes.DAMAGED in lines[-2] and json.loads(lines[-1])["at"]
