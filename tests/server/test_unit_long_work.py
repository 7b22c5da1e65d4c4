"""Long work on a terminal, in the journal, and where nobody reads it."""
import io
import os
import re
import signal
import sys
import threading
import time

import pytest
from support.library import ends, long_work, shown

MIB = 1 << 20


class Terminal(io.StringIO):
    def isatty(self):
        return True


def a_terminal(monkeypatch):
    """One on which standard error goes."""
    made = Terminal()
    monkeypatch.setattr(sys, "stderr", made)
    monkeypatch.setenv("TERM", "xterm")
    monkeypatch.setattr(sys, "argv", ["/usr/bin/index-x"])
    monkeypatch.setattr(long_work, "SECONDS_BETWEEN_DRAWINGS", 0.001)
    return made


def until(stream, text):
    """Waits until a line that moves has this text."""
    end = time.monotonic() + 60
    while text not in stream.getvalue() and time.monotonic() < end:
        time.sleep(0.001)
    assert text in stream.getvalue()


def test_on_a_terminal_a_line_moves_and_goes(monkeypatch):
    terminal = a_terminal(monkeypatch)
    counts = []

    def done():
        counts.append(0)
        if len(counts) == 2:
            raise FileNotFoundError("it has another name now")
        return len(counts) * MIB
    with long_work.long_work("copying it", 4 * MIB, done):
        until(terminal, "\rcopying it: 3.0 of 4.0 MiB, 75 %")
    assert "\rcopying it: 1.0 of 4.0 MiB, 25 %\033[K\rcopying it: 3.0 of 4.0 MiB, 75 %" in terminal.getvalue()
    assert terminal.getvalue().endswith("\r\033[K")
    with long_work.long_work("testing it", 4 * MIB):
        until(terminal, "\rtesting it, 4.0 MiB: 0:00\033[K")


def test_work_that_fails_clears_its_line(monkeypatch):
    terminal = a_terminal(monkeypatch)
    with pytest.raises(ends.Refused), long_work.long_work("testing it", 1):
        until(terminal, "testing it")
        raise ends.Refused("no")
    assert terminal.getvalue().endswith("\r\033[K")


def test_no_signal_comes_in_by_the_line(monkeypatch):
    """The work may hold signals, and one goes to any thread of a program that takes it."""
    terminal, before = a_terminal(monkeypatch), threading.enumerate()
    with long_work.long_work("stopping it", 1):
        until(terminal, "stopping it")
        mover, = (it for it in threading.enumerate() if it not in before)
        with open(f"/proc/self/task/{mover.native_id}/status", encoding="ascii") as status:
            blocked = int(re.search("SigBlk:\\s*([0-9a-f]+)", status.read())[1], 16)
    assert all(blocked >> (number - 1) & 1 for number in ends.SIGNALS)
    assert not signal.pthread_sigmask(signal.SIG_BLOCK, ()) & {*ends.SIGNALS}, "and the work takes them"


def test_in_the_journal_stand_its_begin_and_its_end(monkeypatch, capsys):
    at = os.fstat(2)
    monkeypatch.setattr(sys, "argv", ["/usr/bin/index-x"])
    monkeypatch.setenv("JOURNAL_STREAM", f"{at.st_dev}:{at.st_ino}")
    with long_work.long_work("copying it", 5 * MIB // 2):
        assert capsys.readouterr().err == "index-x: copying it, 2.5 MiB\n"
    assert capsys.readouterr().err == "index-x: copying it: ended after 0.0 s\n"


@pytest.mark.parametrize("journal", [None, "1:1", ""])
def test_elsewhere_it_says_nothing(monkeypatch, capsys, journal):
    """As a program that another one runs, whose words are why that one ends; also if that one is in the journal."""
    monkeypatch.delenv("JOURNAL_STREAM", raising=False)
    if journal is not None:
        monkeypatch.setenv("JOURNAL_STREAM", journal)
    with long_work.long_work("copying it", 1, lambda: 1):
        pass
    assert capsys.readouterr().err == "" and not shown.in_journal()


def test_a_terminal_that_moves_no_cursor_gets_no_line(monkeypatch):
    terminal = a_terminal(monkeypatch)
    monkeypatch.setenv("TERM", "dumb")
    with long_work.long_work("copying it", 1):
        time.sleep(0.01)
    assert terminal.getvalue() == ""


def test_a_terminal_that_was_closed_ends_no_work(monkeypatch):
    class Closed(Terminal):
        def write(self, _):
            raise OSError(5, "Input/output error")
    monkeypatch.setattr(sys, "stderr", Closed())
    monkeypatch.setenv("TERM", "xterm")
    with long_work.long_work("copying it", 1):
        pass
    sys.stderr.close()
