"""The folder of the pages for everybody: what is written, what is kept between runs, and what is refused."""
from __future__ import annotations

import os
import runpy
import sys
import types

import pytest
from indexctl.commands import site
from indexctl.ends import WRONG, Stop
from indexctl.site import folder
from indexctl.site.about import About
from support.indexctl.rows import SETTING
from support.planted import catches
from support.unit import calls


def test_a_page_is_written_if_it_changed(tmp_path):
    path = str(tmp_path / "x.html")
    assert [folder.put_changed(path, it) for it in ("a", "a", "b", "\r\n")] == [True, False, True, True]
    (tmp_path / "x.html").write_bytes(b"\xff")
    assert folder.put_changed(path, "b") and os.listdir(tmp_path) == ["x.html"]


def test_each_page_of_a_name_that_is_gone_is_removed(tmp_path):
    for name in ("a.html", "b.html", "c.html.part", "kept.html", "mine.txt"):
        (tmp_path / name).touch()
    assert folder.remove_others(str(tmp_path), ["kept.html"]) == 3
    assert sorted(os.listdir(tmp_path)) == ["kept.html", "mine.txt"]


@catches("indexctl/page.py", "if is_synced:", "if path:")
def test_pages_are_not_synced_one_by_one(tmp_path, monkeypatch):
    monkeypatch.setattr(os, "fsync", lambda *_: pytest.fail("synced"))
    folder.put_changed(str(tmp_path / "x"), "a")


def test_what_wheels_said_is_kept_between_runs(tmp_path):
    with folder.kept_in(str(tmp_path)) as kept:
        kept["a"] = About("s")
    (tmp_path / "index.html").write_text("x")
    with folder.kept_in(str(tmp_path)) as kept:
        assert kept == {"a": About("s")}
        del kept["a"]
    with folder.kept_in(str(tmp_path)) as kept:
        assert kept == {}


def test_what_was_kept_and_is_spoilt_is_left_out(tmp_path):
    (tmp_path / ".wheels.json").write_bytes(b"\xff{")
    with folder.kept_in(str(tmp_path)) as kept:
        assert kept == {}


@catches("indexctl/site/folder.py", 'encoding="utf-8", errors="replace", opener=open_itself)',
         'encoding="utf-8", errors="replace")')
def test_a_link_in_the_place_of_what_was_kept_leads_nowhere(tmp_path):
    (tmp_path / "mine").write_text("mine")
    (tmp_path / ".wheels.json").symlink_to(tmp_path / "mine")
    with pytest.raises(OSError, match="symbolic links"), folder.kept_in(str(tmp_path)):
        pass
    assert (tmp_path / "mine").read_text() == "mine"


@catches("indexctl/site/folder.py", "if os.path.islink(inner):", "if os.path.islink(folder):")
def test_a_link_in_the_place_of_the_pages_removes_no_others(tmp_path):
    (tmp_path / "mine").mkdir()
    (tmp_path / "mine" / "x.html").write_text("mine")
    (tmp_path / "projects").symlink_to(tmp_path / "mine")
    with pytest.raises(Stop, match="projects is a link"):
        folder.put_pages(str(tmp_path), "https://h", [], None, None)
    assert os.listdir(tmp_path / "mine") == ["x.html"]


def test_without_a_folder_nothing_is_asked_for(tmp_path, monkeypatch):
    desks = calls(monkeypatch, site, "Desk")
    with pytest.raises(Stop, match="none is not a folder") as end:
        site.site(types.SimpleNamespace(folder=f"{tmp_path}/none", url=None, log=None))
    assert end.value.status == WRONG and not desks


@catches("indexctl/commands/site.py", 'url = plain_url(parts_of_url(args.url, "--url")) if args.url else None',
         'url = (parts_of_url(args.url, "--url") and args.url) if args.url else None')
@pytest.mark.parametrize("url, shown", [
    ("https://bob:s3cret@h:8443/", "https://h:8443"), ("https://bob@h", "https://h"),
    ("https://[2001:db8::1]/", "https://[2001:db8::1]"), (None, SETTING.url)])
def test_no_password_of_an_address_is_in_the_pages(tmp_path, monkeypatch, url, shown):
    calls(monkeypatch, site, "Desk", types.SimpleNamespace(index=None, setting=SETTING, say=lambda *_: None))
    calls(monkeypatch, site, "find_projects", [])
    given = calls(monkeypatch, site, "put_pages", 0)
    site.site(types.SimpleNamespace(folder=str(tmp_path), url=url, log=None))
    assert [it[:3] for it in given] == [(str(tmp_path), shown, [])]


def test_a_folder_of_something_else_is_refused(tmp_path):
    (tmp_path / "thesis.tex").write_text("x")
    with pytest.raises(Stop, match="has files of something else"), folder.kept_in(str(tmp_path)):
        pass
    assert os.listdir(tmp_path) == ["thesis.tex"]


@catches("indexctl/site/folder.py", "if fcntl:", "if not fcntl:")
def test_a_second_run_waits_for_the_first(tmp_path, monkeypatch):
    locked = []
    monkeypatch.setattr(folder.fcntl, "flock", lambda _, how: locked.append(how))
    with folder.kept_in(str(tmp_path)):
        assert locked == [folder.fcntl.LOCK_EX]


def test_a_system_without_locks_keeps_what_wheels_said_too(tmp_path, monkeypatch):
    """As Windows, which has no such module."""
    monkeypatch.setitem(sys.modules, "fcntl", None)
    kept_in = runpy.run_path(folder.__file__)["kept_in"]
    with kept_in(str(tmp_path)) as kept:
        kept["a"] = About("s")
    with kept_in(str(tmp_path)) as kept:
        assert kept == {"a": About("s")}
