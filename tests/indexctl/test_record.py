"""The record: nothing is asked for that it has no room for, and what was accepted is in it."""
from __future__ import annotations

import json
import os
import resource
import signal

import pytest
from support.indexctl.control import Control, assert_ends
from support.indexctl.scripted import always, as_json, scripted
from support.planted import catches

ACCEPTED = always(*as_json({"answer": "accepted"}))
CLAIM = "name", "claim", "another"


@pytest.fixture
def record(folder):
    """A record of 965 bytes."""
    path = f"{folder}/record.jsonl"
    with open(path, "w", encoding="utf-8") as kept:
        kept.write(json.dumps({"at": "2026-01-01T00:00:00Z", "do": "claim", "name": "x" * 900}) + "\n")
    return path


def limit_files():
    """Files end at 1,000 bytes, as on a disk that is full."""
    signal.signal(signal.SIGXFSZ, signal.SIG_IGN)
    resource.setrlimit(resource.RLIMIT_FSIZE, (1000, 1000))


@catches("indexctl/record.py", r'self.write(b" " * (len(line) - 1) + b"\n", end)', "pass",
         also=["test_a_record_that_can_t_be_written_stops_the_change[full_device]"])
@catches("indexctl/record.py", "except OSError as why:", "except ZeroDivisionError as why:")
def test_a_record_whose_disk_is_full_stops_the_change(folder, record):
    before = os.path.getsize(record)
    with scripted(ACCEPTED) as server:
        ended = Control(folder, server.url, INDEX_RECORD=record).run(*CLAIM, limit=limit_files)
        assert_ends(ended, 2, "can't be written", "not asked for")
        assert not server.asked
    assert os.path.getsize(record) == before


@catches("indexctl/record.py", "self.file = os.open(path, os.O_RDWR | os.O_CREAT, 0o600)",
         'self.file = os.open("/dev/null", os.O_RDWR)', case="no_folder")
@pytest.mark.parametrize("path, said", [("/dev/full", "No space left"), ("FOLDER/none/record", "No such file")],
                         ids=["full_device", "no_folder"])
def test_a_record_that_can_t_be_written_stops_the_change(folder, path, said):
    with scripted(ACCEPTED) as server:
        by = Control(folder, server.url, INDEX_RECORD=path.replace("FOLDER", folder))
        assert_ends(by.run(*CLAIM), 2, "can't be written", said, "asked for")
        assert not server.asked


@catches("indexctl/changes.py",
         'if reply.status in (200, 201) and (answer == "accepted" or answer == "already" and reply.is_repeat):',
         "if answer:", also=["test_a_change_is_recorded_if_it_may_be_of_this_run[done_before]"])
def test_a_refusal_is_not_recorded(folder, record):
    before = os.path.getsize(record)
    with scripted(always(409, "application/json", b'{"answer":"refused","code":19,"name":"NameHeld"}')) as server:
        assert_ends(Control(folder, server.url, INDEX_RECORD=record).run(*CLAIM), 1, "NameHeld")
    assert os.path.getsize(record) == before


@catches("indexctl/transport.py", "is_repeat = is_repeat or was_sent", "is_repeat = False", case="reply_lost")
@pytest.mark.parametrize("replies, count", [([None, "already"], 1), (["already"], 0), (["accepted"], 1)],
                         ids=["reply_lost", "done_before", "accepted"])
def test_a_change_is_recorded_if_it_may_be_of_this_run(folder, replies, count):
    left, path = list(replies), f"{folder}/record.jsonl"

    def answer(*_):
        found = left.pop(0)
        return found and as_json({"answer": found})
    with scripted(answer) as server:
        assert_ends(Control(folder, server.url, INDEX_RECORD=path).run("name", "claim", "x"), 0)
    with open(path, encoding="utf-8") as kept:
        rows = [json.loads(it) for it in kept]
    assert [(row["do"], row["name"], row["index"]) for row in rows] == [("claim", "x", server.url)] * count
