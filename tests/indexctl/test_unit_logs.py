"""Logs of changes that are read line by line: their order, what is compressed or damaged, and how much is kept."""
from __future__ import annotations

import gzip
import json
import os
import tracemalloc
from pathlib import Path

import pytest
from indexctl import logs
from indexctl.ends import WRONG, Stop
from indexctl.units import iso
from support.planted import catches


def text(*moments: int) -> str:
    """A log with a line for each of these moments."""
    return "".join(f"{json.dumps({'at': iso(it), 'status': 200, 'path': f'/{it}'})}\n" for it in moments)


def put(path: Path, content: str, packs: bool = False) -> str:
    path.write_bytes(gzip.compress(content.encode()) if packs else content.encode())
    return str(path)


def moments(*paths: str) -> list[int]:
    return [it.moment for it in logs.lines_in(paths)]


@catches("indexctl/logs.py", "heapq.heappush(heads, (line.moment, number, line, log))",
         "heapq.heappush(heads, (number, number, line, log))",
         ("indexctl/logs.py", "return sorted(found, reverse=True)", "return found[::-1]"),
         also=["test_the_lines_of_two_nginx_are_sorted_by_their_moments",
               "indexctl/test_history.py::test_logs_that_logrotate_compressed_are_read_too"])
def test_logs_that_were_rotated_away_come_before_the_log_in_whatever_order_they_are_named(tmp_path):
    now = put(tmp_path / "changes.log", text(50, 60))
    older = put(tmp_path / "changes.log.1", text(30, 40))
    oldest = put(tmp_path / "changes.log.10.gz", text(10, 20), packs=True)
    assert moments(now, older, oldest) == moments(oldest, now, older) == [10, 20, 30, 40, 50, 60]


@catches("indexctl/logs.py", "os.stat(path).st_mtime, path)", "-os.stat(path).st_mtime, path)")
def test_within_a_second_what_was_rotated_away_comes_first(tmp_path):
    now, older = put(tmp_path / "changes.log", text(10, 11)), put(tmp_path / "changes.log.1", text(9, 10))
    for path, moment, word in ((now, 300, "now"), (older, 200, "older")):
        Path(path).write_text(Path(path).read_text().replace('"status"', f'"{word}": 1, "status"'))
        os.utime(path, (moment, moment))
    oldest = put(tmp_path / "changes.log.2", text(9))
    os.utime(oldest, (100, 100))
    found = [(it.moment, "now" in it.found, "older" in it.found) for it in logs.lines_in([now, older, oldest])]
    assert found == [(9, False, False), (9, False, True), (10, False, True), (10, True, False), (11, True, False)]


def test_the_lines_of_two_nginx_are_sorted_by_their_moments(tmp_path):
    assert moments(put(tmp_path / "a", text(10, 30, 31, 60)), put(tmp_path / "b", text(20, 31, 40))) == [
        10, 20, 30, 31, 31, 40, 60]


def test_a_line_has_what_stands_there(tmp_path):
    path = put(tmp_path / "a", '{"at":"2026-11-30T02:00:00+01:00","status":201,"id":"x"}\n')
    line, = logs.lines_in([path])
    assert line == (1_796_000_400, {"at": "2026-11-30T02:00:00+01:00", "status": 201, "id": "x"})


@catches("indexctl/logs.py", "is_gzip = log.read(2) == GZIP", 'is_gzip = path.endswith(".gz")')
def test_a_compressed_log_is_known_by_its_bytes(tmp_path):
    assert moments(put(tmp_path / "a", text(10), packs=True), put(tmp_path / "b.gz", text(20))) == [10, 20]


@catches("indexctl/logs.py", "except (OSError, EOFError, zlib.error) as end:", "except (OSError, zlib.error) as end:")
def test_of_a_damaged_log_what_can_be_read_is_given_and_it_is_told(tmp_path, capsys):
    whole = gzip.compress(text(*range(3_000)).encode(), compresslevel=1)
    (tmp_path / "a.gz").write_bytes(whole[:len(whole) // 2])
    (tmp_path / "b.gz").write_bytes(b"\x1f\x8b\x08")
    found = moments(str(tmp_path / "a.gz"), str(tmp_path / "b.gz"), put(tmp_path / "c", text(9_000)))
    assert found[:3] == [0, 1, 2] and 100 < len(found) < 3_000 and found[-1] == 9_000
    said = capsys.readouterr().err
    assert f"{tmp_path}/a.gz: no more of it can be read" in said
    assert f"{tmp_path}/b.gz: none of it can be read" in said


@catches("indexctl/logs.py", "lost += 1", "lost = 0")
@catches("indexctl/logs.py", "except Stop:", "except KeyError:")
def test_lines_that_are_malformed_are_counted_and_end_nothing(tmp_path, capsys):
    wrong = ["x", "[]", '{"at":7}', '{"status":200}', '{"at":"yesterday"}', "[" * 9_999, '{"at":"2026-11']
    path = put(tmp_path / "a", "\n".join([wrong[0], text(10), *wrong[1:], text(20), "", " "]))
    assert moments(path) == [10, 20]
    assert capsys.readouterr().err == f"{path}: 7 lines can't be read\n"


@catches("indexctl/logs.py", 'return open(path, encoding="utf-8", errors="replace")',
         'return open(path, encoding="utf-8")')
def test_bytes_that_are_no_text_end_nothing(tmp_path):
    (tmp_path / "a").write_bytes(b'{"at":"1970-01-01T00:00:10Z","path":"/\xff"}\n')
    assert [it.found["path"] for it in logs.lines_in([str(tmp_path / "a")])] == ["/\ufffd"]


@catches("indexctl/logs.py", "except (EOFError, zlib.error, gzip.BadGzipFile) as end:",
         "except (EOFError, zlib.error, OSError) as end:")
def test_a_log_that_is_not_there_is_told_before_anything_is_given(tmp_path):
    with pytest.raises(Stop, match="none can't be read: No such file") as end:
        next(logs.lines_in([put(tmp_path / "a", text(10)), str(tmp_path / "none")]))
    assert end.value.status == WRONG


def test_an_empty_log_has_no_line(tmp_path, capsys):
    assert moments(put(tmp_path / "a", ""), put(tmp_path / "b.gz", "", packs=True)) == []
    assert capsys.readouterr().err == ""


@catches("indexctl/logs.py", "while waiting and (not heads or waiting[-1].moment <= heads[0][0]):", "while waiting:")
def test_few_logs_are_open_at_a_time(tmp_path, monkeypatch):
    """Some systems let a program open 256 files, and a log of 400 days may be in 400."""
    opened, at_once, real = [], [], logs.text_of

    def text_of(path):
        opened.append(real(path))
        at_once.append(sum(not it.closed for it in opened))
        return opened[-1]

    monkeypatch.setattr(logs, "text_of", text_of)
    paths = [put(tmp_path / f"{at:02}", text(10 * at, 10 * at + 5)) for at in range(50)]
    assert len(moments(*reversed(paths))) == 100
    assert max(at_once) <= 2 and len(opened) == 100


def peak(path: str) -> int:
    """The most memory that is taken while the lines of a log are read, one after the other."""
    tracemalloc.start()
    try:
        for _ in logs.lines_in([path]):
            pass
        return tracemalloc.get_traced_memory()[1]
    finally:
        tracemalloc.stop()


@catches("indexctl/logs.py", "for text in log:", "for text in log.readlines():")
@pytest.mark.parametrize("packs", [False, True])
def test_a_log_of_any_length_takes_the_same_memory(tmp_path, packs):
    short, long = (put(tmp_path / f"{count}", text(*range(count)), packs) for count in (1_000, 6_000))
    # (buffers grow up to a bound)
    assert peak(long) < peak(short) + 200_000
