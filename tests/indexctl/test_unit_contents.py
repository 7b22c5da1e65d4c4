"""What a page has of a project, the order of its releases, and what was meant by a slip."""
from __future__ import annotations

import importlib
import json
import random

import pytest
from indexctl import contents, near, terminal, versions
from indexctl.ends import WRONG, Stop
from support.indexctl.rows import FakeIndex, args, reply
from support.needed import want_module
from support.planted import catches

DIGEST = "ab" * 32
ORDERED = ("strange_", "0.9", "1.0.dev1", "1.0a1.dev1", "1.0a1", "1.0b2", "1.0rc1", "1.0", "1.0+abc", "1.0+5",
           "1.0.post1.dev1", "1.0.post1", "1.1.dev1", "1.2", "1.10", "2021.1", "1!0.1")
# of which a version has one each, in all their spellings
PARTS = (("", "0!", "1!"), ("1", "1.0", "1.00", "1.0.1", "0", "10"),
         ("", "a1", "alpha1", "_beta.1", "b", "c1", "RC1", "pre1", ".preview", "pre10"),
         ("", ".post1", "post", "_rev1", "r2", "post.10"), ("", ".dev1", "dev", "_dev2"),
         ("", "+abc", "+5", "+05", "+abc.5", "+abc_10", "+abc.10", "+ab"))


def page(*files, **more):
    return reply(200, json.dumps({"files": files, **more}).encode(), Content_Type="application/json")


def file(name, **more):
    return {"filename": name, "url": "x", "size": 3, "hashes": {"sha256": DIGEST}, **more}


def test_a_file_has_what_the_page_says_of_it():
    index = FakeIndex(page(file("frob-1.0RC1.tar.gz", yanked="old", **{"requires-python": ">=3.8"})))
    assert contents.find_contents(index, "Frob") == [
        contents.FileRow("frob-1.0RC1.tar.gz", "1.0rc1", 3, ">=3.8", "old", DIGEST)]
    assert index.asked[0].path == "/simple/frob/"


@pytest.mark.parametrize("given, yanked, text", [({}, None, ""), ({"yanked": True}, "", "yes"),
                                                 ({"yanked": False}, None, ""), ({"yanked": "x"}, "x", "x")])
def test_a_yank_has_a_reason_or_none(given, yanked, text):
    row = contents.file_row(file("frob-1.0.tar.gz", **given))
    assert row.yanked == yanked and contents.yanked_text(row) == text


@pytest.mark.parametrize("given", [{"size": "3"}, {"size": -1}, {"hashes": []}, {"hashes": {}}, {"requires-python": 3},
                                   {"hashes": {"sha256": 1}}])
def test_what_is_not_of_its_kind_is_left_out(given):
    row = contents.file_row({**file("x.exe"), **given})
    digest = "" if "hashes" in given else DIGEST
    assert row == contents.FileRow("x.exe", "", 0 if "size" in given else 3, "", None, digest)


def test_a_name_that_nobody_holds_has_no_files():
    assert contents.find_contents(FakeIndex(reply(404, b'{"name": "NoProject"}')), "x") is None


def test_a_page_may_be_asked_for_fresh():
    index = FakeIndex(page(), page())
    for words in ((), (True,)):
        contents.find_contents(index, "x", *words)
    assert ["fresh" in dict(it.headers)["Accept"] for it in index.asked] == [False, True]


def test_the_newest_release_comes_first_and_its_files_by_their_names():
    names = "frob-1.9.tar.gz", "frob-1.10.tar.gz", "frob-1.10-py3-none-any.whl", "frob-1.10rc1.tar.gz"
    rows = contents.find_contents(FakeIndex(page(*map(file, names))), "frob")
    assert [it.file for it in rows] == ["frob-1.10-py3-none-any.whl", "frob-1.10.tar.gz", "frob-1.10rc1.tar.gz",
                                        "frob-1.9.tar.gz"]
    assert [(it.release, it.size, len(it.files)) for it in contents.releases_of("frob", rows)] == [
        ("1.10", 6, 2), ("1.10rc1", 3, 1), ("1.9", 3, 1)]


def test_releases_are_ordered_by_pep_440():
    mixed = list(ORDERED)
    random.Random(7).shuffle(mixed)
    assert sorted(mixed, key=versions.order) == list(ORDERED)


@pytest.mark.parametrize("form", ["{}!1.0", "{}.0", "1.0a{}", "1.0.post{}", "1.0.dev{}", "1.0+{}"])
def test_long_numbers_are_compared_whole(form):
    one, other = (form.format((1 << 53) + more) for more in (0, 1))
    assert versions.order(one) < versions.order(other) and versions.order(one)[:-1] != versions.order(other)[:-1]


@catches("indexctl/versions.py", '"c": "rc", "rc": "rc",', '"c": "a", "rc": "rc",')
def test_releases_are_ordered_as_installers_do(looked):
    want_module("packaging", "python3-packaging")
    version = importlib.import_module("packaging.version").Version
    chance = random.Random(7)
    for _ in range(5_000):
        parts = [chance.choice(it) for it in PARTS]
        other = "".join(chance.choice(part) if chance.random() < 0.2 else it for it, part in zip(parts, PARTS))
        one, keys = "".join(parts), [versions.order(it)[:-1] for it in ("".join(parts), other)]
        looked((keys[0] < keys[1], keys[0] == keys[1])
               == (version(one) < version(other), version(one) == version(other)), one, other)


@pytest.mark.parametrize("one, other", [("abc", "ab"), ("ab", "abc"), ("abc", "axc"), ("abc", "acb"), ("abc", "xabc"),
                                        ("amber-cahce", "amber-cache"), ("abc", "bac"), ("abc", "abcd")])
def test_a_slip_is_one_letter(one, other):
    assert near.is_near(one, other)


@pytest.mark.parametrize("one, other", [("abc", "abc"), ("abc", "cba"), ("abc", "a"), ("abcd", "badc"), ("abc", "xyz"),
                                        ("ab", "bxa")])
def test_more_than_one_letter_is_another_name(one, other):
    assert not near.is_near(one, other)


def test_a_name_without_its_separators_is_meant_too():
    assert near.near("amberclient", ["amber-client", "amber-clients", "amberclient"]) == ["amber-client"]


@pytest.mark.parametrize("projects, said", [
    (["frob", "spam"], "Nobody holds forb. Did you mean `frob`?"),
    (["fora", "forc", "ford", "fore"], "Nobody holds forb. Did you mean `fora` or `forc` or `ford`?"),
    (["spam"], "Nobody holds forb. `indexctl names` lists all names.")])
def test_a_name_that_nobody_holds_names_those_near_it(projects, said):
    listed = reply(200, json.dumps({"projects": [{"name": it} for it in projects]}).encode())
    assert near.not_held(FakeIndex(listed), "forb") == said


def test_a_list_that_can_t_be_had_names_none():
    assert near.not_held(FakeIndex(reply(503, b"")), "x").startswith("Nobody holds x. `indexctl")


@pytest.mark.parametrize("is_terminal", [True, False])
def test_a_person_alone_is_asked(monkeypatch, is_terminal):
    monkeypatch.setattr(terminal.sys.stdin, "isatty", lambda: is_terminal, raising=False)
    monkeypatch.setattr("builtins.input", lambda _: "no")
    if not is_terminal:
        terminal.confirm_on_terminal(args(), "It goes.")
        return
    with pytest.raises(Stop, match="Nothing was done") as end:
        terminal.confirm_on_terminal(args(), "It goes.")
    assert end.value.status == WRONG
