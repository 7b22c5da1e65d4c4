"""How a run of indexctl ends: its status, and what it says on standard error."""
from __future__ import annotations

import sys
import types

import pytest
from indexctl import main
from indexctl.ends import INTERRUPTED, REFUSED, WRONG, Stop
from indexctl.terminal import confirm_on_terminal, note, say
from support.planted import catches
from support.unit import calls, raises


def run(monkeypatch, function):
    """The status of a run whose command is this function."""
    args = types.SimpleNamespace(function=function)
    calls(monkeypatch, main, "parsed", args)
    return main.main()


@pytest.mark.parametrize("end, status, said", [
    (Stop(REFUSED, "ann owns it"), REFUSED, "indexctl: ann owns it\n"),
    (KeyboardInterrupt(), INTERRUPTED, "indexctl: interrupted\n"),
    (OSError(28, "No space left on device"), WRONG, "indexctl: [Errno 28] No space left on device\n")])
def test_why_it_ends_is_told_and_is_its_status(monkeypatch, capsys, end, status, said):
    assert run(monkeypatch, raises(end)) == status
    out, err = capsys.readouterr()
    assert said in err and not out


@catches("indexctl/main.py", "if getattr(sys, name) is None:", "if not name:")
@pytest.mark.parametrize("stream", ["stdin", "stderr"])
def test_a_stream_that_is_closed_is_an_empty_one(monkeypatch, stream):
    """Python has none then, as behind `<&-`."""
    monkeypatch.setattr(sys, stream, None)

    def command(_):
        confirm_on_terminal(types.SimpleNamespace(yes=False), "Really?")
        say("done")
        note("well")
    assert run(monkeypatch, command) == 0
    getattr(sys, stream).close()


@catches("indexctl/main.py", "if sys.stdout is None:", "if sys.stdin is None:")
def test_a_closed_output_ends_a_run_before_anything_is_asked_for(monkeypatch, capsys):
    """What can't be told, such as a new token, would be lost."""
    asked = []
    monkeypatch.setattr(sys, "stdout", None)
    assert run(monkeypatch, asked.append) == WRONG and not asked
    assert "Standard output is closed, so nothing was asked for" in capsys.readouterr().err


@pytest.mark.parametrize("given, status", [(None, 0), (0, 0), (REFUSED, 1), (WRONG, 2)])
def test_the_status_is_that_of_the_command(monkeypatch, capsys, given, status):
    ended = run(monkeypatch, lambda _: given)
    assert (ended, type(ended), capsys.readouterr().err) == (status, int, "")
