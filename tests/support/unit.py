"""What tests of functions share: a program's `main` with these words, and what it said."""
import sys
import types


def ends(module, monkeypatch, capsys, *words):
    """The status of a program's `main`, by the rule of all programs, and its output with its errors."""
    name = module.__name__.replace("_", "-")
    monkeypatch.setattr(sys, "argv", [name, *map(str, words)])
    # (the signals of a test belong to pytest)
    monkeypatch.setattr(module.status_of.__globals__["signal"], "signal", lambda *_: None)
    try:
        status = module.status_of(name, module.main)
    except SystemExit as end:
        status = end.code
    out, err = capsys.readouterr()
    return status, out, err


def calls(monkeypatch, module, name, gives=None):
    """The words of each call of this function of a module, which then does nothing else than to give this."""
    seen = []

    def call(*words, **_):
        seen.append(words)
        return gives(*words) if callable(gives) else gives

    monkeypatch.setattr(module, name, call)
    return seen


def with_time(monkeypatch, module, **functions):
    """Gives a module a `time` of its own with these functions. Threads of other tests go on by the real one."""
    monkeypatch.setattr(module, "time", types.SimpleNamespace(**{**vars(module.time), **functions}))


def raises(end):
    """A function that raises this, whatever it is given."""
    def call(*_, **__):
        raise end

    return call
