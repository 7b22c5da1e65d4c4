"""What the index shows: standings that are whole, pages, and walks."""
from __future__ import annotations

import json
import threading

import pytest
from indexctl import standings
from indexctl.ends import REFUSED, UNREACHED, Stop
from support.indexctl.rows import CASE, FakeIndex, reply
from support.planted import catches

HELD = {"name": "frob", "state": "held", "shown": "Frob", "owners": ["ann"], "quota": 5, "charge": 3, "case": None}
MOST = 1 << 60


@pytest.mark.parametrize("value, is_number", [(0, True), (MOST, True), (MOST + 1, False), (-1, False), (True, False),
                                              (1.0, False), ("1", False), (None, False)])
def test_a_number_is_whole_and_not_too_large(value, is_number):
    assert standings.is_number(value) == is_number


@catches("indexctl/standings.py", "not isinstance(name, str) or not is_name(name) or", "not isinstance(name, str) or")
@pytest.mark.parametrize("changed", [
    {"name": 1}, {"name": None}, {"name": ""}, {"name": "../a"}, {"name": "a/b"}, {"name": "a\n"}, {"state": "sold"},
    {"state": None}, {"shown": None}, {"owners": "ann"}, {"owners": ["ann", 1]}, {"owners": None},
    {"quota": None}, {"quota": -1}, {"charge": "3"}, {"charge": MOST + 1}, {"case": []}, {"case": {}}, {"case": 1}])
def test_a_standing_is_whole_or_none(changed):
    assert standings.is_standing(HELD) and not standings.is_standing({**HELD, **changed})


@pytest.mark.parametrize("state", ["free", "prohibited"])
def test_a_name_that_nobody_holds_has_no_more(state):
    assert standings.is_standing({"name": "x", "state": state})
    found = standings.standing_of({"name": "x", "state": state})
    assert (found.owners, found.case, found.quota, found.given) == ([], None, 0, {"name": "x", "state": state})


@pytest.mark.parametrize("changed, is_case", [
    ({}, True), ({"first": None}, True), ({"opened": 250_000_000_000}, True), ({"opened": 250_000_000_001}, False),
    ({"first": 250_000_000_000}, True), ({"first": 250_000_000_001}, False), ({"first": "1"}, False),
    ({"attempts": MOST + 1}, False), ({"attempts": -1}, False), ({"sent": -1}, False), ({"sent": True}, False),
    ({"pages": 1}, False), ({"author": None}, False), ({"profile": "x"}, False), ({"candidate": None}, False),
    ({"kind": 1}, False), ({"why": None}, False), ({"work": 3}, False), ({"contact": []}, False)])
def test_a_case_is_whole_or_none(changed, is_case):
    assert standings.is_case({**CASE, **changed}) == is_case


def test_a_standing_has_what_the_index_gave():
    found = standings.standing_of({**HELD, "case": CASE})
    assert (found.name, found.state, found.shown, found.owners) == ("frob", "held", "Frob", ["ann"])
    assert (found.quota, found.charge, found.case) == (5, 3, standings.Case(**CASE))
    assert standings.standing_of(HELD).case is None


def as_reply(status, value):
    return reply(status, json.dumps(value).encode(), Content_Type="application/json")


def test_a_name_is_asked_for_by_its_path():
    index = FakeIndex(as_reply(200, HELD))
    assert standings.find_standing(index, "a/b").name == "frob"
    assert (index.asked[0].method, index.asked[0].path) == ("GET", "/names/a%2Fb")


def test_a_name_that_is_refused_says_what_to_do():
    with pytest.raises(Stop, match="^x: 400 BadName. This is not a project's name") as end:
        standings.find_standing(FakeIndex(as_reply(400, {"answer": "refused", "name": "BadName"})), "x")
    assert end.value.status == REFUSED


@pytest.mark.parametrize("status, value", [(200, {"name": "x"}), (500, HELD), (201, HELD), (200, [])])
def test_what_is_no_standing_is_no_answer(status, value):
    with pytest.raises(Stop, match="This is no answer of an index") as end:
        standings.find_standing(FakeIndex(as_reply(status, value)), "x")
    assert end.value.status == UNREACHED


def test_a_page_that_is_not_there_is_none():
    assert standings.find_page(FakeIndex(as_reply(404, {"name": "NoProject"})), "/simple/", "projects", "name") is None


@pytest.mark.parametrize("status, value", [
    (404, {"name": "Other"}), (200, {"name": "NoProject"}), (200, {"projects": {}}), (500, {"projects": []}),
    (200, {"projects": [{"name": "a"}, {"name": 1}]}), (200, {"projects": ["a"]})])
def test_a_page_of_another_form_is_no_answer(status, value):
    with pytest.raises(Stop, match="This is no answer of an index"):
        standings.find_page(FakeIndex(as_reply(status, value)), "/simple/", "projects", "name")


@catches("indexctl/standings.py", "isinstance(it.get(key), str) and is_text(it[key]) for",
         "isinstance(it.get(key), str) for")
@pytest.mark.parametrize("name", ["\ud800", "a\udfffb"])
def test_a_name_that_is_no_text_is_no_name_of_an_index(name):
    with pytest.raises(Stop, match="This is no answer of an index"):
        standings.listed_names(FakeIndex(as_reply(200, {"projects": [{"name": "a"}, {"name": name}]})))


@pytest.mark.parametrize("name, path", [("A_b", "a-b"), ("\u00e4", "%C3%A4"), ("a b", "a%20b"), ("../x", "-%2Fx"),
                                        ("a\r\nb", "a%0D%0Ab")])
def test_a_project_has_a_path_though_its_name_is_none(name, path):
    assert standings.page_of_project(name) == f"/simple/{path}/"


def side_by_side(function, items):
    """What a function gives for each item."""
    return standings.side_by_side(lambda some: [function(it) for it in some], items, "x")


def test_what_is_asked_side_by_side_comes_in_order():
    assert list(side_by_side(lambda it: it * 2, list(range(50)))) == [it * 2 for it in range(50)]
    assert list(side_by_side(lambda it: it, [])) == []


@catches("indexctl/standings.py", "while due not in found:", "while not found:",
         ("indexctl/standings.py", "yield from found.pop(due)", "yield from found.pop(min(found))"))
def test_what_is_answered_late_comes_in_its_place():
    later = threading.Event()

    def ask(it):
        if it == 0:
            assert later.wait(60)
        else:
            later.set()
        return it
    assert list(side_by_side(ask, [0, 1, 2])) == [0, 1, 2]


def test_eight_are_asked_at_once():
    together = threading.Barrier(8, timeout=60)
    assert len(list(side_by_side(lambda _: together.wait(), list(range(8))))) == 8


@catches("indexctl/standings.py", "if end:", "if end and (starts.empty() or given.put((at, results, end))):")
def test_the_first_failure_ends_a_walk():
    """No other item is waited for."""
    over, answered = threading.Event(), []

    def fail(it):
        if it == 3:
            raise Stop(UNREACHED, "no 3")
        over.wait(10)
        answered.append(it)
        return it
    with pytest.raises(Stop, match="no 3"):
        list(side_by_side(fail, list(range(20))))
    assert answered == []
    over.set()


def test_a_name_that_is_given_up_meanwhile_is_left_out():
    index = FakeIndex(as_reply(200, {"projects": [{"name": "a"}]}), as_reply(200, {"name": "a", "state": "free"}))
    assert list(standings.held_names(index)) == []
    # a list that nginx has kept is as good
    assert dict(index.asked[0].headers) == {"Accept": standings.JSON_PAGE}


def test_an_address_without_a_list_of_names_is_no_index():
    with pytest.raises(Stop, match="/simple/ is not there, and each index has it") as end:
        standings.held_names(FakeIndex(as_reply(404, {"name": "NoProject"})))
    assert end.value.status == UNREACHED


def test_no_more_than_eight_are_asked_at_once(monkeypatch):
    made, thread = [], threading.Thread
    monkeypatch.setattr(standings.threading, "Thread", lambda **given: made.append(given) or thread(**given))
    assert list(side_by_side(lambda it: it, list(range(20)))) == list(range(20))
    assert len(made) == 8
    assert list(side_by_side(lambda it: it, [1, 2])) == [1, 2]
    # a program that is interrupted waits for none of them
    assert len(made) == 10 and all(it["daemon"] for it in made)


def test_a_fresh_page_is_asked_for_as_nobody_asked_before():
    listed = as_reply(200, {"projects": []})
    index = FakeIndex(*3 * [listed])
    for is_fresh in (True, True, False):
        standings.find_page(index, "/simple/", "projects", "name", is_fresh)
    first, second, kept = (dict(it.headers)["Accept"] for it in index.asked)
    assert kept == standings.JSON_PAGE and len({first, second, kept}) == 3
    assert first.startswith(f"{kept}, application/x-fresh-") and second.startswith(f"{kept}, application/x-fresh-")


def test_what_nginx_keeps_is_good_enough_if_no_fresh_page_is_asked_for():
    index = FakeIndex(as_reply(200, {"projects": [{"name": "a"}]}))
    assert standings.listed_names(index) == ["a"]
    assert [dict(it.headers) for it in index.asked] == [{"Accept": "application/vnd.pypi.simple.v1+json"}]


@catches("indexctl/standings.py", "function(items[at:at + length]), None))",
         "function(items[at:at + max(1, length - 1)]), None))", case="1000",
         also=["test_a_long_walk_comes_whole_and_in_order[5003]"])
@pytest.mark.parametrize("count", [1, 31, 32, 33, 64, 65, 1_000, 5_003])
def test_a_long_walk_comes_whole_and_in_order(count):
    assert list(side_by_side(lambda it: -it, list(range(count)))) == [-it for it in range(count)]


@catches("indexctl/standings.py", "while due not in found:", "while len(found) < len(range(due, len(items), length)):")
def test_what_is_asked_side_by_side_comes_before_all_was_asked():
    last = threading.Event()
    found = side_by_side(lambda it: it < 19 or last.wait(60), list(range(20)))
    assert next(found) is True
    last.set()
    assert list(found) == 19 * [True]


def test_a_name_of_the_list_is_asked_for_at_a_glance():
    index = FakeIndex(glances=[json.dumps(HELD).encode()])
    assert standings.walked_standings(index, ["Frob"])[0].owners == ["ann"]
    assert (index.glanced, index.asked) == (["/names/Frob"], [])


def test_names_of_the_list_come_in_its_order():
    """Also if one of them is asked for once more."""
    index = FakeIndex(as_reply(200, {**HELD, "name": "b"}),
                      glances=[json.dumps({**HELD, "name": it}).encode() for it in "axc"])
    assert [it.name for it in standings.walked_standings(index, ["a", "b", "c"])] == ["a", "b", "c"]
    assert (index.glanced, [it.path for it in index.asked]) == (["/names/a", "/names/b", "/names/c"], ["/names/b"])


@catches("indexctl/standings.py", 'is_own = found and is_standing(found) and found["name"] == normal(name)',
         "is_own = found and is_standing(found)")
@catches("indexctl/standings.py", 'is_own = found and is_standing(found) and found["name"] == normal(name)',
         'is_own = found and found.get("name") == normal(name)')
@pytest.mark.parametrize("seen", [
    json.dumps({**HELD, "name": "other"}).encode(), json.dumps({**HELD, "quota": -1}).encode(), b"{}", b"[]", b"",
    None])
def test_what_a_glance_does_not_show_is_asked_for(seen):
    index = FakeIndex(as_reply(200, {**HELD, "quota": 7}), glances=[] if seen is None else [seen])
    assert standings.walked_standings(index, ["frob"])[0].quota == 7
    assert [it.path for it in index.asked] == ["/names/frob"]


def test_a_name_that_is_refused_in_a_walk_says_what_to_do():
    with pytest.raises(Stop, match="^x: 400 BadName. This is not a project's name"):
        standings.walked_standings(FakeIndex(as_reply(400, {"answer": "refused", "name": "BadName"})), ["x"])
