"""Lines, tables, progress and questions, without a terminal and with one that is made up."""
from __future__ import annotations

import io
import json
import os
import sys

import pytest
from indexctl import terminal
from indexctl.ends import WRONG, Stop
from indexctl.quotas import QuotaRow
from support.indexctl.rows import args
from support.planted import catches
from support.unit import with_time


class Tty(io.StringIO):
    """A terminal. `seen` is what was on it after each time that all was written."""

    def __init__(self):
        super().__init__()
        self.seen = []

    def isatty(self):
        return True

    def flush(self):
        self.seen.append(self.getvalue())


@pytest.fixture(autouse=True)
def plain(monkeypatch):
    monkeypatch.delenv("NO_COLOR", raising=False)
    monkeypatch.setenv("TERM", "xterm")
    monkeypatch.setenv("COLUMNS", "40")


def test_only_a_terminal_has_colours(monkeypatch):
    assert terminal.paint("x", "red", Tty()) == "\033[31mx\033[0m"
    assert terminal.paint("x", None, Tty()) == terminal.paint("x", "red", io.StringIO()) == "x"
    monkeypatch.setenv("TERM", "dumb")
    assert terminal.paint("x", "red", Tty()) == "x"
    monkeypatch.setenv("TERM", "xterm")
    monkeypatch.setenv("NO_COLOR", "1")
    assert terminal.paint("x", "red", Tty()) == "x"


@pytest.mark.parametrize("text, shown", [("a\u00e9 b", "a\u00e9 b"), ("a\x1b[1m", "a\\u001b[1m"), ("\u202e", "\\u202e"),
                                         ("a\nb", "a\\u000ab"), (5, "5")])
def test_what_is_printed_moves_no_cursor(text, shown):
    assert terminal.printable(text) == shown


class Clock:
    def __init__(self, monkeypatch):
        self.now = 100.0
        with_time(monkeypatch, terminal, monotonic=lambda: self.now)
        monkeypatch.setenv("TERM", "xterm")


def test_progress_is_drawn_ten_times_a_second_and_cleared(monkeypatch):
    stream, clock = Tty(), Clock(monkeypatch)
    monkeypatch.setattr(sys, "stderr", stream)
    with terminal.Progress("names", 3) as progress:
        progress.step()
        clock.now += 0.05
        progress.step()
        clock.now += 0.06
        progress.step()
    assert stream.getvalue() == "\rnames: 1 of 3, 33 %\033[K\rnames: 3 of 3, 100 %\033[K\r\033[K"
    assert stream.seen[0] == "\rnames: 1 of 3, 33 %\033[K" and stream.seen[-1] == stream.getvalue()
    terminal.Progress.clear()
    assert stream.getvalue().count("\r") == 3


@pytest.mark.parametrize("told", [terminal.say, terminal.note])
def test_a_line_stands_where_progress_stood(monkeypatch, told):
    stream, _ = Tty(), Clock(monkeypatch)
    monkeypatch.setattr(sys, "stderr", stream)
    monkeypatch.setattr(sys, "stdout", stream)
    with terminal.Progress("names", 3) as progress:
        progress.step()
        told("b")
    assert stream.getvalue() == "\rnames: 1 of 3, 33 %\033[K\r\033[Kb\n"


def test_what_is_sent_is_counted_in_mib_and_then_waited_for(monkeypatch):
    stream, clock = Tty(), Clock(monkeypatch)
    monkeypatch.setattr(sys, "stderr", stream)
    monkeypatch.setenv("COLUMNS", "80")
    pieces = [bytes(1 << 20), bytes(1 << 20), bytes(1 << 19)]
    with terminal.Progress("x.whl", 5 << 19, is_bytes=True) as progress:
        # the second trial of a request begins anew
        for _ in range(2):
            for piece in progress.sent(pieces):
                clock.now += len(piece) / (1 << 19)
            assert stream.seen[-1].endswith("\rx.whl: 2.5 MiB sent, waiting for the index\033[K")
    drawn = stream.seen[-1].split("\033[K")[:4]
    assert drawn == ["\rx.whl: 1.0 of 2.5 MiB, 40 %, 0.5 MiB a second, 0:03 left",
                     "\rx.whl: 2.0 of 2.5 MiB, 80 %, 0.5 MiB a second, 0:01 left",
                     "\rx.whl: 2.5 of 2.5 MiB, 100 %, 0.5 MiB a second, 0:00 left",
                     "\rx.whl: 2.5 MiB sent, waiting for the index"]
    assert stream.seen[-1].split("\033[K")[4:8] == drawn and stream.seen[-1].endswith("\r\033[K")


def test_progress_fits_the_terminal_and_counts_nothing_as_nothing(monkeypatch):
    stream, _ = Tty(), Clock(monkeypatch)
    monkeypatch.setattr(sys, "stderr", stream)
    with terminal.Progress("n" * 80, 0) as progress:
        progress.step(0)
    assert stream.getvalue().startswith(f"\r{'n' * 39}\033[K")


@catches("indexctl/terminal.py", "self.is_watched = is_watched()", "self.is_watched = sys.stderr.isatty()")
def test_a_terminal_that_moves_no_cursor_shows_no_progress(monkeypatch):
    stream, _ = Tty(), Clock(monkeypatch)
    monkeypatch.setattr(sys, "stderr", stream)
    monkeypatch.setenv("TERM", "dumb")
    with terminal.Progress("names", 3) as progress:
        progress.step()
    assert stream.getvalue() == ""


def test_without_a_terminal_there_is_no_progress(capsys):
    with terminal.Progress("names", 3) as progress:
        progress.step()
    assert capsys.readouterr().err == ""


def test_in_the_journal_stand_the_begin_and_the_end_of_a_walk(monkeypatch, capsys):
    clock, at = Clock(monkeypatch), os.fstat(2)
    monkeypatch.setenv("JOURNAL_STREAM", f"{at.st_dev}:{at.st_ino}")
    with terminal.Progress("names", 3) as progress:
        assert capsys.readouterr().err == "names: 3, begun\n"
        clock.now += 75
        progress.step(2)
    assert capsys.readouterr().err == "names: 2 of 3, ended after 1:15\n"
    with terminal.Progress("x.whl", 3, is_bytes=True) as progress:
        progress.step(3)
    assert capsys.readouterr().err == ""


def test_what_was_done_and_what_is_noted_go_to_two_streams(capsys):
    terminal.say("a\x07")
    terminal.note("b")
    out = capsys.readouterr()
    assert (out.out, out.err) == ("a\\u0007\n", "b\n")


@pytest.mark.parametrize("name, tell", [("stdout", terminal.say), ("stderr", terminal.note)])
def test_a_line_is_printed_at_once_though_nobody_looks(monkeypatch, name, tell):
    kept = io.BytesIO()
    monkeypatch.setattr(sys, name, io.TextIOWrapper(kept))
    tell("x")
    assert kept.getvalue() == b"x\n"


def test_yes_is_not_asked_if_it_was_given():
    terminal.confirm(args(yes=True), "All goes.")


def test_without_a_terminal_nothing_is_asked_and_nothing_done(monkeypatch):
    monkeypatch.setattr(sys, "stdin", io.StringIO("yes\n"))
    with pytest.raises(Stop, match="^All goes. Nothing was done. If you mean it, repeat .*--yes.$") as end:
        terminal.confirm(args(), "All goes.")
    assert end.value.status == WRONG


@pytest.mark.parametrize("answer, is_yes", [("yes", True), (" yes ", True), ("y", False), ("YES", False), ("", False),
                                            (None, False)])
def test_only_yes_is_yes(monkeypatch, answer, is_yes):
    def typed(_):
        if answer is None:
            raise EOFError
        return answer
    monkeypatch.setattr(sys, "stdin", Tty())
    monkeypatch.setattr("builtins.input", typed)
    if is_yes:
        terminal.confirm(args(), "All goes.")
        return
    with pytest.raises(Stop, match="^Nothing was done.$") as end:
        terminal.confirm(args(), "All goes.")
    assert end.value.status == WRONG


ROWS = [QuotaRow("a", 50.0, 1, 2, ["x", "y"]), QuotaRow("long-name", 1.0, 0, 9, [])]
COLUMNS = {**terminal.texts("name", "owners"), "full": lambda row: f"{row.full:.0f} %"}


def test_a_table_has_columns_of_one_width(capsys):
    terminal.listing(args(), ROWS, COLUMNS)
    assert capsys.readouterr().out == ("name       owners  full\na          x, y    50 %\nlong-name          1 %\n")


def test_rows_are_json_if_that_was_asked_for(capsys):
    terminal.listing(args(json=True), ROWS, COLUMNS)
    assert json.loads(capsys.readouterr().out)[0] == {"name": "a", "full": 50.0, "charge": 1, "quota": 2,
                                                      "owners": ["x", "y"]}
    terminal.listing(args(json=True), [{"a": 1}], {}, lambda row: [row])
    assert json.loads(capsys.readouterr().out) == [[{"a": 1}]]


def test_no_rows_are_none(capsys):
    terminal.listing(args(), [], COLUMNS)
    out = capsys.readouterr()
    assert (out.out, out.err) == ("", "none\n")
    terminal.listing(args(json=True), [], COLUMNS)
    assert capsys.readouterr().out == "[]\n"


@pytest.mark.parametrize("columns, is_table", [(17, True), (16, False)])
def test_a_table_that_is_wider_than_the_terminal_is_printed_in_blocks(monkeypatch, columns, is_table):
    stream = Tty()
    monkeypatch.setattr(sys, "stdout", stream)
    monkeypatch.setenv("COLUMNS", str(columns))
    monkeypatch.setenv("NO_COLOR", "1")
    terminal.listing(args(), ROWS, terminal.texts("name", "owners"))
    assert stream.getvalue() == ("name       owners\na          x, y\nlong-name\n" if is_table else
                                 "name    a\nowners  x, y\n\nname    long-name\n\n")


@pytest.mark.parametrize("names, wide", [(["name"], 9), (["name", "owners"], 17), (["name", "owners", "full"], 23)])
def test_a_table_is_as_wide_as_its_columns_with_the_gaps_between_them(monkeypatch, names, wide):
    monkeypatch.setenv("NO_COLOR", "1")
    for columns, is_table in ((wide, True), (wide - 1, False)):
        monkeypatch.setattr(sys, "stdout", stream := Tty())
        monkeypatch.setenv("COLUMNS", str(columns))
        terminal.listing(args(), ROWS, {it: COLUMNS[it] for it in names})
        assert (stream.getvalue().splitlines()[0].split() == names) == is_table


def test_a_text_of_a_row_is_of_its_field_or_its_key():
    columns = terminal.texts("a", "b")
    assert [columns[it]({"a": ["x", "y"]}) for it in columns] == ["x, y", ""]


def test_a_long_cell_is_wrapped_below_itself(capsys):
    for most in (30, 29):
        terminal.print_block({"why": "one two three four fives six seven"}, most)
    assert capsys.readouterr().out == ("why  one two three four fives\n     six seven\n\n"
                                       "why  one two three four\n     fives six seven\n\n")


def test_a_name_is_not_torn_by_its_hyphen_or_for_its_length(capsys):
    terminal.print_block({"why": "one two three four fi-ves six"}, 30)
    assert capsys.readouterr().out == "why  one two three four\n     fi-ves six\n\n"
    terminal.print_block({"why": f"one {'f' * 64} two"}, 30)
    assert capsys.readouterr().out == f"why  one\n     {'f' * 64}\n     two\n\n"


def test_a_cell_has_twenty_columns_at_least(capsys):
    terminal.print_block({"why": "a" * 19 + " b"}, 5)
    assert capsys.readouterr().out == f"why  {'a' * 19}\n     b\n\n"
