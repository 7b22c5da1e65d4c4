"""Whether an address still gives what was banned or prohibited."""
from __future__ import annotations

import json

import pytest
from indexctl import served
from indexctl.ends import UNREACHED, Stop
from support.indexctl.desk import FakeDesk
from support.indexctl.rows import FakeIndex, reply
from support.planted import catches
from support.unit import raises, with_time

FILE = "frob-1!2.0.tar.gz"
URL = "http://127.0.0.1:9"


def told(capsys, monkeypatch, *statuses, files=(FILE,), is_json=False):
    """What is said at these statuses, and the requests. A pause is a second by the clock."""
    now = [0.0]
    def sleep(_):
        now[0] += 1
    with_time(monkeypatch, served, monotonic=lambda: now[0], sleep=sleep)
    index, desk = FakeIndex(*(reply(it, b"") for it in statuses)), FakeDesk()
    desk.index, desk.is_json = index, is_json
    served.tell_served(desk, list(files))
    out = capsys.readouterr()
    return out.out + ("" if is_json else out.err), [(it.method, it.path) for it in index.asked]


def test_a_file_that_is_gone_is_told_at_once(capsys, monkeypatch):
    assert told(capsys, monkeypatch, 404) == (
        f"{FILE}: {URL} serves it no more\n", [("HEAD", "/files/frob/frob-1%212.0.tar.gz")])


@catches("indexctl/served.py", "if time.monotonic() > until or not", "if True or not")
def test_one_that_nginx_gives_up_soon_is_waited_for(capsys, monkeypatch):
    said, asked = told(capsys, monkeypatch, 200, 200, 404)
    assert said == f"{FILE}: {URL} serves it no more\n" and len(asked) == 3


@pytest.mark.parametrize("status", [200, 206])
def test_one_that_goes_out_still_is_told_with_what_to_do(capsys, monkeypatch, status):
    said, asked = told(capsys, monkeypatch, *[status] * 9)
    assert said == f"{FILE}: {URL} still serves it, out of nginx's cache. Run its index-uncache line on the server.\n"
    assert len(asked) == 5, "three seconds, and a last look"


@catches("indexctl/served.py", "if status == GONE:", "if status not in GIVEN:")
@pytest.mark.parametrize("status", [401, 403, 301])
def test_what_another_status_means_is_not_guessed(capsys, monkeypatch, status):
    assert told(capsys, monkeypatch, status)[0] == f"{FILE}: {URL} may still serve it: it answers {status}.\n"


@pytest.mark.parametrize("status, is_served", [(404, False), (200, True), (206, True), (401, None)])
def test_as_json_it_is_true_false_or_unknown(capsys, monkeypatch, status, is_served):
    said, _ = told(capsys, monkeypatch, *[status] * 9, is_json=True)
    assert json.loads(said) == {"do": "look", "file": FILE, "status": status, "served": is_served}


def test_each_file_is_looked_at_until_it_is_gone(capsys, monkeypatch):
    said, asked = told(capsys, monkeypatch, 404, 200, 404, files=("a-1.tar.gz", "b-1.tar.gz"))
    assert said.count("serves it no more") == 2
    assert [it for _, it in asked] == ["/files/a/a-1.tar.gz", "/files/b/b-1.tar.gz", "/files/b/b-1.tar.gz"]


def test_an_index_that_is_away_meanwhile_fails_nothing(capsys, monkeypatch):
    monkeypatch.setattr(FakeIndex, "ask", raises(Stop(UNREACHED, "it is away")))
    assert told(capsys, monkeypatch)[0] == f"Whether {URL} still serves it can't be seen: it is away\n"


def test_of_nothing_nothing_is_asked(capsys, monkeypatch):
    assert told(capsys, monkeypatch, files=()) == ("", [])
