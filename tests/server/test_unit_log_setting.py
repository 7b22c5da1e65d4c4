"""Each program that reads the log of changes takes the one that nginx's configuration names, unless it is given one."""
from __future__ import annotations

import pytest
from indexctl.commands import history
from indexctl.ends import WRONG, Stop
from support.indexctl.rows import args
from support.library import log_place
from support.planted import catches
from support.programs import program_of
from support.unit import calls, ends

ALARMS, FOLLOW, METRICS, RESTORE = map(program_of, ("index-alarms", "index-uncache-follow", "index-metrics",
                                                    "index-restore"))


@pytest.fixture
def conf(tmp_path):
    """A configuration that names a log of this folder."""
    path = tmp_path / "packages.conf"
    path.write_text(f"access_log {tmp_path}/its.log index_changes if=$is_change;\n")
    return str(path)


@catches("server/bin/index-uncache-follow", "words.log = words.log or log_of_changes(words.conf)",
         "words.log = log_of_changes(words.conf)")
@pytest.mark.parametrize("given, log", [([], "its.log"), (["--log", "other.log"], "other.log")])
def test_the_follower(monkeypatch, capsys, conf, tmp_path, given, log):
    seen = calls(monkeypatch, FOLLOW, "follow")
    ends(FOLLOW, monkeypatch, capsys, "--conf", conf, "--place", tmp_path / "place", *given)
    assert seen[0][0].log == (f"{tmp_path}/{log}" if not given else log)


@catches("server/bin/index-alarms", "words.changes = words.changes or log_of_changes(words.nginx)",
         "words.changes = words.changes or log_of_changes()")
@pytest.mark.parametrize("given, log", [([], "its.log"), (["--changes", "other.log"], "other.log")])
def test_the_alarms(monkeypatch, capsys, conf, tmp_path, given, log):
    seen = calls(monkeypatch, ALARMS, "watch", 0)
    ends(ALARMS, monkeypatch, capsys, "--nginx", conf, *given)
    assert seen[0][0].changes == (f"{tmp_path}/{log}" if not given else log)


@pytest.mark.parametrize("given, log", [([], "its.log"), (["--changes", "other.log"], "other.log")])
def test_the_metrics(monkeypatch, capsys, conf, tmp_path, given, log):
    seen = calls(monkeypatch, METRICS, "metrics", [])
    ends(METRICS, monkeypatch, capsys, "x.db", "copies", "--nginx", conf, *given)
    assert seen[0][0].changes == (f"{tmp_path}/{log}" if not given else log)


@pytest.mark.parametrize("given, log", [([], "its.log"), (["--changes", "other.log"], "other.log")])
def test_a_restore(monkeypatch, capsys, conf, tmp_path, given, log):
    (tmp_path / "index-20260101T000000Z.db").write_bytes(b"SQLite format 3\0")
    gathered = calls(monkeypatch, RESTORE, "changes_since", "none")
    monkeypatch.setattr(RESTORE, "log_of_changes", lambda: log_place.log_of_changes(conf))
    words = args(copy=str(tmp_path / "index-20260101T000000Z.db"), db=RESTORE.DB, url="", unit=None, cache=None,
                 with_pypi=str(tmp_path / "none"), changes=given[1:])
    RESTORE.forgotten(words, str(tmp_path))
    assert gathered[0][0] == ([f"{tmp_path}/{log}"] if not given else [log])


@catches("indexctl/commands/history.py", "    if not found:", "    if False:")
def test_the_history(monkeypatch, capsys, conf, tmp_path):
    monkeypatch.setattr(history, "log_of_changes", lambda: log_place.log_of_changes(conf))
    nothing = args(logs=[], users=[], name=None, file=None, user=None, since=None, until=None, refused=False)
    with pytest.raises(Stop, match=f"There is no {tmp_path}/its.log that you may read") as end:
        history.history(nothing)
    assert end.value.status == WRONG
    for name, second in (("its.log", 2), ("its.log.1", 1)):
        (tmp_path / name).write_text(f'{{"at":"1970-01-01T00:00:0{second}Z","do":"claim","name":"frob"}}\n')
    history.history(nothing)
    assert [it[:20] for it in capsys.readouterr().out.splitlines()] == ["1970-01-01T00:00:01Z", "1970-01-01T00:00:02Z"]
