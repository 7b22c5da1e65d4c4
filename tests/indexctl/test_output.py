"""What can't be printed: a full disk, a reader that has had enough, and a closed standard output."""
from __future__ import annotations

import os

import pytest
from support.indexctl.control import Control
from support.indexctl.scripted import always, as_json, scripted
from support.planted import catches

ACCEPTED = always(*as_json({"answer": "accepted"}))
CLAIMS = "name", "claim", "a", "b"


def ended(folder, url, words, stdout, **setting):
    """The status and the errors of a run that prints there."""
    with Control(folder, url, **setting).start(*words, streams={"stdout": stdout}) as run:
        errors = run.stderr.read()
        return run.wait(timeout=60), errors


@catches("indexctl/main.py", "drop(sys.stdout)", "pass")
@pytest.mark.parametrize("words", [("--help",), ("man",), ("token", "new"), ("names", "--json"), CLAIMS],
                         ids=lambda it: it[0].strip("-"))
def test_a_full_disk_is_told_in_a_sentence(folder, words):
    answer = ACCEPTED if words == CLAIMS else always(*as_json({"projects": []}))
    with scripted(answer) as server, open("/dev/full", "wb") as full:
        status, errors = ended(folder, server.url, words, full)
    assert status == 2 and errors.endswith("indexctl: [Errno 28] No space left on device: 'standard output'\n"), errors
    assert "Exception ignored" not in errors and "Traceback" not in errors, errors


@catches("indexctl/terminal.py", "note(text)", "pass", also=["test_what_was_done_is_told_if_nobody_reads_the_output"])
@pytest.mark.parametrize("unbuffered", [None, "1"])
def test_what_was_done_and_can_t_be_printed_is_told_and_nothing_more_is_done(folder, unbuffered):
    with scripted(ACCEPTED) as server, open("/dev/full", "wb") as full:
        status, errors = ended(folder, server.url, CLAIMS, full, PYTHONUNBUFFERED=unbuffered)
        assert (status, len(server.asked)) == (2, 1)
    assert errors.startswith("claim a: accepted\nindexctl: [Errno 28] No space left on device"), errors


@pytest.mark.parametrize("unbuffered", [None, "1"])
def test_what_was_done_is_told_if_nobody_reads_the_output(folder, unbuffered):
    read, write = os.pipe()
    os.close(read)
    with scripted(ACCEPTED) as server, open(write, "wb") as pipe:
        assert ended(folder, server.url, CLAIMS, pipe, PYTHONUNBUFFERED=unbuffered) == (141, "claim a: accepted\n")
        assert len(server.asked) == 1


@catches("indexctl/terminal.py", "drop(sys.stderr)", "pass",
         also=["test_notes_that_can_t_be_printed_leave_nothing_undone"])
def test_the_status_is_the_same_if_errors_can_t_be_printed_either(folder):
    """As by `2>&1 | head`."""
    read, write = os.pipe()
    os.close(read)
    with scripted(ACCEPTED) as server, open(write, "wb") as pipe, open("/dev/full", "wb") as full:
        for stream, status in ((pipe, 141), (full, 2)):
            with Control(folder, server.url).start(*CLAIMS, streams={"stdout": stream, "stderr": stream}) as run:
                assert run.wait(timeout=60) == status


@catches("indexctl/terminal.py", "drop(sys.stderr)", "raise")
def test_notes_that_can_t_be_printed_leave_nothing_undone(folder):
    def answer(method, *_):
        return as_json({"files": []} if method == "GET" else {"answer": "accepted"})
    with scripted(answer) as server, open("/dev/full", "wb") as full:
        words = "file", "delete", "a-1.tar.gz", "b-1.tar.gz"
        with Control(folder, server.url).start(*words, streams={"stderr": full}) as run:
            said, status = run.stdout.read(), run.wait(timeout=60)
    assert (status, said.splitlines()) == (0, ["delete a-1.tar.gz: accepted", "index-uncache a a-1.tar.gz",
                                               "delete b-1.tar.gz: accepted", "index-uncache b b-1.tar.gz"])
