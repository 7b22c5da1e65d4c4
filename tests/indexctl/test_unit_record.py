"""The record: its room, its lock and its mode."""
from __future__ import annotations

import errno
import fcntl
import json
import multiprocessing
import os

import pytest
from indexctl import record as records
from indexctl.ends import WRONG, Stop
from indexctl.record import Record
from support.planted import catches
from support.unit import raises, with_time


def keep_rows(path, who, count, at_once):
    record = Record(path)
    at_once.wait()
    for number in range(count):
        with record.room({"who": who, "number": number}) as keep:
            keep()


def test_two_at_once_lose_no_row_of_one_record(folder):
    """With a lock that is shared they do: of 60 rows each, run side by side."""
    path, at_once = f"{folder}/record", multiprocessing.Barrier(2)
    both = [multiprocessing.Process(target=keep_rows, args=(path, who, 60, at_once)) for who in "ab"]
    for it in both:
        it.start()
    for it in both:
        it.join()
    with open(path, encoding="utf-8") as kept:
        rows = [json.loads(line) for line in kept]
    assert [[row["number"] for row in rows if row["who"] == who] for who in "ab"] == [list(range(60))] * 2


def try_lock(path, found):
    """Puts whether a lock on this file can be had at once."""
    with open(path, "rb+") as other:
        try:
            fcntl.flock(other, fcntl.LOCK_SH | fcntl.LOCK_NB)
            found.put(True)
        except BlockingIOError:
            found.put(False)


def is_free(path):
    found = multiprocessing.Queue()
    other = multiprocessing.Process(target=try_lock, args=(path, found))
    other.start()
    is_it = found.get(timeout=60)
    other.join()
    return is_it


def test_nobody_else_has_even_a_shared_lock_while_room_is_taken(folder):
    path = f"{folder}/record"
    record = Record(path)
    with record.room({"a": 1}):
        assert not is_free(path)
    assert is_free(path)


@catches("indexctl/record.py", "        self.lock()", "        size = os.fstat(self.file).st_size; self.lock()",
         ("indexctl/record.py", "        end, is_kept = os.fstat(self.file).st_size, []",
          "        end, is_kept = size, []"))
def test_a_row_comes_behind_those_that_another_run_has_kept_meanwhile(tmp_path, monkeypatch):
    """Until a run has the lock, the record may grow. (Two processes show this if the machine has time for both.)"""
    path, lock = tmp_path / "record", fcntl.flock

    def lock_after_another(file, how):
        if how & fcntl.LOCK_EX:
            with open(path, "ab") as other:
                other.write(b'{"who": "another"}\n')
        lock(file, how)

    record = Record(str(path))
    monkeypatch.setattr(records.fcntl, "flock", lock_after_another)
    with record.room({"who": "this"}) as keep:
        keep()
    with record.room({"who": "nobody"}):
        pass
    assert path.read_text() == '{"who": "another"}\n{"who": "this"}\n{"who": "another"}\n'


def test_the_lock_is_given_back_if_the_change_fails(folder):
    path = f"{folder}/record"
    record = Record(path)
    with pytest.raises(KeyboardInterrupt):
        with record.room({"a": 1}):
            raise KeyboardInterrupt
    assert is_free(path) and os.path.getsize(path) == 0


@catches("indexctl/record.py", "for _ in range(QUIET_TRIALS):", "while True:")
@pytest.mark.parametrize("busy, said", [(0, ""), (19, ""), (20, "Another indexctl is at work with the record")])
def test_who_waits_long_for_another_run_is_told(tmp_path, monkeypatch, capsys, busy, said):
    """As for one that Ctrl-Z stopped: it has the record until it ends."""
    asked, slept, lock = [], [], fcntl.flock

    def flock(file, how):
        asked.append(how)
        if how & fcntl.LOCK_NB and len(asked) <= busy:
            raise BlockingIOError
        lock(file, how)

    with_time(monkeypatch, records, sleep=slept.append)
    monkeypatch.setattr(records.fcntl, "flock", flock)
    Record(f"{tmp_path}/record").lock()
    told = capsys.readouterr().err
    assert said in told and bool(told) == bool(said) and len(slept) == busy
    assert asked[-1] == fcntl.LOCK_EX | (0 if said else fcntl.LOCK_NB)


def test_room_is_taken_whole_before_the_change(tmp_path):
    path = tmp_path / "record"
    with Record(str(path)).room({"a": 1}) as keep:
        assert path.read_bytes() == b" " * 8 + b"\n"
        keep()
        assert path.read_bytes() == b'{"a": 1}\n'


def test_room_that_is_not_used_is_given_back(tmp_path):
    record = Record(str(tmp_path / "record"))
    for is_kept in (True, False, True):
        with record.room({"kept": is_kept}) as keep:
            if is_kept:
                keep()
    assert (tmp_path / "record").read_text() == '{"kept": true}\n' * 2


def test_nobody_else_may_read_a_new_record(tmp_path):
    old = os.umask(0)
    try:
        Record(str(tmp_path / "record"))
    finally:
        os.umask(old)
    assert (tmp_path / "record").stat().st_mode & 0o777 == 0o600


def test_a_record_that_is_there_goes_on(tmp_path):
    (tmp_path / "record").write_text("{}\n")
    with Record(str(tmp_path / "record")).room({"a": 1}) as keep:
        keep()
    assert (tmp_path / "record").read_text() == '{}\n{"a": 1}\n'


def test_a_row_is_written_whole_though_the_system_takes_it_in_pieces(tmp_path, monkeypatch):
    written = os.pwrite
    monkeypatch.setattr(os, "pwrite", lambda file, data, at: written(file, data[:3], at))
    with Record(str(tmp_path / "record")).room({"a": 1, "b": "2"}) as keep:
        keep()
    assert json.loads((tmp_path / "record").read_text()) == {"a": 1, "b": "2"}


def test_room_and_row_are_on_the_disk_before_the_run_goes_on(tmp_path, monkeypatch):
    synced, sync = [], os.fsync
    monkeypatch.setattr(os, "fsync", lambda file: synced.append((tmp_path / "record").read_bytes()) or sync(file))
    with Record(str(tmp_path / "record")).room({"a": 1}) as keep:
        assert synced == [b" " * 8 + b"\n"]
        keep()
        assert synced[1:] == [b'{"a": 1}\n']


def test_a_disk_that_is_full_leaves_the_record_as_it_was(tmp_path, monkeypatch):
    (tmp_path / "record").write_text("{}\n")
    record, written = Record(str(tmp_path / "record")), os.pwrite

    def full(file, data, at):
        if at > 5:
            raise OSError(errno.ENOSPC, "No space left on device")
        return written(file, data[:4], at)
    monkeypatch.setattr(os, "pwrite", full)
    with pytest.raises(Stop, match="No space left on device.*This was not asked for") as end:
        with record.room({"a": 1}):
            raise AssertionError("the change was asked for")
    assert end.value.status == WRONG and (tmp_path / "record").read_text() == "{}\n"


@catches("indexctl/record.py", "            with suppress(OSError):", "            with suppress(FileNotFoundError):")
def test_a_disk_that_takes_nothing_back_either_is_told_all_the_same(tmp_path, monkeypatch):
    record = Record(str(tmp_path / "record"))
    monkeypatch.setattr(os, "pwrite", raises(OSError(errno.EIO, "Input/output error")))
    monkeypatch.setattr(os, "ftruncate", raises(OSError(errno.EIO, "Input/output error")))
    with pytest.raises(Stop, match="Input/output error.*This was not asked for"):
        with record.room({"a": 1}):
            raise AssertionError("the change was asked for")


@catches("indexctl/record.py", "except OSError as failed:", "except ZeroDivisionError as failed:")
def test_a_change_whose_line_can_t_be_written_is_told_as_accepted(tmp_path, monkeypatch):
    """As on a file system that writes what it has room for elsewhere."""
    record = Record(str(tmp_path / "record"))

    def full(*_):
        raise OSError(errno.ENOSPC, "No space left on device")
    with pytest.raises(OSError, match=r'No space left on device.*This was accepted, .* \{"a": 1\}: .*record') as end:
        with record.room({"a": 1}) as keep:
            monkeypatch.setattr(os, "pwrite", full)
            keep()
    assert end.value.errno == errno.ENOSPC


@catches("indexctl/record.py", "        except OSError as end:", "        except FileNotFoundError as end:")
@pytest.mark.parametrize("name, why", [("none/record", "No such file"), ("", "Is a directory")])
def test_a_record_that_can_t_be_made_is_told(tmp_path, name, why):
    with pytest.raises(Stop, match=f"can't be written: {why}.*Nothing was asked for") as end:
        Record(str(tmp_path / name))
    assert end.value.status == WRONG


def test_a_record_is_not_given_to_other_programs(tmp_path):
    assert not os.get_inheritable(Record(str(tmp_path / "record")).file)


def test_a_system_without_locks_keeps_no_record(tmp_path, monkeypatch):
    monkeypatch.setattr(records, "fcntl", None)
    with pytest.raises(Stop, match="can't be kept on this system") as end:
        Record(str(tmp_path / "record"))
    assert end.value.status == WRONG and not (tmp_path / "record").exists()
