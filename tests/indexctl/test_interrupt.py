"""Ctrl-C ends a walk at once, and a reader that has had enough ends it without a complaint."""
from __future__ import annotations

import signal
import threading
import time

from support.indexctl.control import Control
from support.indexctl.scripted import list_of, scripted, standing_of
from support.planted import catches


def take_interrupts():
    """In the background of a shell a run ignores Ctrl-C, and what it starts would too."""
    signal.signal(signal.SIGINT, signal.default_int_handler)


@catches("indexctl/main.py", "return INTERRUPTED", "raise", ("indexctl/main.py", "return PIPE_CLOSED", "raise"),
         also=["test_a_reader_that_has_had_enough_ends_a_walk_in_silence"])
def test_ctrl_c_ends_a_walk_at_once(folder):
    def slow(_, path, *__):
        if path == "/simple/":
            return list_of(5000)
        time.sleep(0.2)
        return standing_of(path)
    with scripted(slow) as server:
        with Control(folder, server.url).start("names", limit=take_interrupts) as walk:
            while len(server.asked) < 20 and walk.poll() is None:
                time.sleep(0.02)
            begun = time.monotonic()
            walk.send_signal(signal.SIGINT)
            out, errors = walk.communicate(timeout=60)
    assert (walk.returncode, out) == (130, "") and "interrupted" in errors and "Traceback" not in errors, errors
    # the whole walk would take more than two minutes
    assert time.monotonic() - begun < 60


def test_ctrl_c_in_a_change_says_that_it_may_have_been_done(folder):
    is_sent = threading.Event()

    def slow(*_):
        # the reply comes behind the signal, however busy the machine is
        is_sent.wait(60)
        return 200, "application/json", b'{"answer":"accepted"}'
    with scripted(slow) as server:
        by = Control(folder, server.url, INDEX_RECORD=f"{folder}/record")
        with by.start("name", "claim", "x", limit=take_interrupts) as change:
            while not server.asked and change.poll() is None:
                time.sleep(0.02)
            change.send_signal(signal.SIGINT)
            is_sent.set()
            _, errors = change.communicate(timeout=60)
    assert change.returncode == 130 and "may have been done, and is in no record" in errors, errors
    with open(f"{folder}/record", encoding="utf-8") as kept:
        assert kept.read() == ""


def test_a_reader_that_has_had_enough_ends_a_walk_in_silence(folder):
    def many(_, path, *__):
        # together more than a pipe takes that nobody reads
        return list_of(400) if path == "/simple/" else standing_of(path, shown="x" * 500)
    with scripted(many) as server:
        with Control(folder, server.url).start("names") as walk:
            walk.stdout.readline()
            walk.stdout.close()
            errors = walk.stderr.read()
            status = walk.wait(timeout=60)
    assert (status, errors) == (141, "")
