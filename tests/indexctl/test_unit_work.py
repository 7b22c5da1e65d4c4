"""How an upload ends and what it says of open cases, and when the page of the office is of."""
from __future__ import annotations

import types

import pytest
from indexctl.commands import work
from indexctl.ends import REFUSED, UNREACHED, WRONG, Stop
from support.indexctl.rows import case_of, held
from support.unit import calls


def test_open_cases_are_told_in_the_order_of_their_names(run, capsys):
    run.names = [held(it, case=case_of(kind="continue")) for it in "jihgfedcba"] + [held("k")]
    assert list(work.cases_on(run.desk, [*"kkjjaihbgfced", "free"])) == [*"abcdefghij"]
    assert capsys.readouterr().err.splitlines() == [
        f"{it}: bob has opened a case on this name, to continue it. An upload ends it." for it in "abcdefghij"]


@pytest.mark.parametrize("case, is_told", [(None, True), (case_of(), False)])
def test_a_case_that_has_ended_is_told_once(run, capsys, case, is_told):
    run.names, cases = [held("a", case=case)], {"a": case_of()}
    for project in ("a", "a", "other"):
        work.tell_ended(run.desk, cases, project)
    said = capsys.readouterr().err
    assert said.count("a: the case of bob has ended by this upload.") == is_told and ("a" in cases) != is_told


@pytest.fixture
def uploaded(run, monkeypatch):
    """Runs an upload of two files, of which each ends so."""
    def upload(*ended):
        left = list(ended)

        def one(*_):
            end = left.pop(0)
            if isinstance(end, Stop):
                raise end
            return end
        files = [types.SimpleNamespace(project="a", name=f"a-{at}.tar.gz") for at in (1, 2)]
        monkeypatch.setattr(work, "files_of", lambda _: files)
        monkeypatch.setattr(work, "upload_file", one)
        return run("upload", "x")
    return upload


@pytest.mark.parametrize("ended, status, done", [
    ((True, True), 0, 2), ((True, False), REFUSED, 1), ((False, False), REFUSED, 0),
    ((True, Stop(UNREACHED, "no answer")), UNREACHED, 1), ((True, Stop(WRONG, "it changed")), WRONG, 1)])
def test_an_upload_says_how_many_files_are_there(uploaded, capsys, ended, status, done):
    assert uploaded(*ended) == status
    assert capsys.readouterr().out == f"{done} of 2 files are there\n"


def test_an_upload_tells_once_that_it_has_ended_a_case(run, uploaded, monkeypatch, capsys):
    run.names = [held("a")]
    monkeypatch.setattr(work, "cases_on", lambda *_: {"a": case_of()})
    assert uploaded(True, True) == 0 and capsys.readouterr().err.count("a: the case of bob has ended") == 1


def test_an_upload_that_is_wrong_ends_at_once(uploaded, capsys):
    with pytest.raises(Stop, match="wrong"):
        uploaded(Stop(WRONG, "wrong"))
    assert capsys.readouterr().out == ""


def test_a_page_is_of_a_whole_second(run, monkeypatch, capsys, tmp_path):
    monkeypatch.setattr(work, "time", types.SimpleNamespace(time=lambda: 5.9))
    monkeypatch.setattr(work, "put_whole", lambda *_: None)
    asked = calls(monkeypatch, work, "page_of", "")
    run("page", str(tmp_path))
    assert [(type(it[-1]), it[-1]) for it in asked] == [(int, 5)]
