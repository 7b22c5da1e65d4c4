"""What commands show of names, files, releases and cases, and before something goes."""
from __future__ import annotations

import json
import sys
import types

import pytest
from indexctl.commands import cases, tokens
from indexctl.contents import FileRow
from indexctl.ends import REFUSED, WRONG, Stop
from indexctl.names import sha256
from indexctl.standings import Standing
from indexctl.units import SIX_WEEKS
from package_index.names import read_file_name
from support.indexctl.rows import CASE, OPENED, SETTING, case_of, held
from support.planted import catches
from support.unit import raises


def rows_of(capsys):
    return json.loads(capsys.readouterr().out)


@catches("indexctl/commands/listings.py", "held_names(Desk(args).index), args.above)",
         "held_names(Desk(args).index), args.above and 80.0)",
         also=["indexctl/test_month.py::test_a_quota_is_near_its_end_from_the_percent_on_that_was_given"])
def test_lists_have_their_rows(run, capsys):
    run.names = [held("a", shown="A", owners=["ann", "bob"], charge=800, case=case_of()), held("b", charge=1)]
    run("names", "--json")
    assert rows_of(capsys) == [{"name": "A", "owners": ["ann", "bob"], "charge": 800, "case": True},
                               {"name": "b", "owners": ["ann"], "charge": 1, "case": False}]
    run("owned-by", "ann", "--json")
    assert [(row["name"], row["alone"]) for row in rows_of(capsys)] == [("a", False), ("b", True)]
    run("owned-by", "bob", "--json")
    assert [row["name"] for row in rows_of(capsys)] == ["a"]
    run("quotas", "--above", "80", "--json")
    assert [(row["name"], row["full"]) for row in rows_of(capsys)] == [("a", 80.0)]
    run("quotas", "--above", "80.1", "--json")
    assert rows_of(capsys) == []
    run("quota", "show", "b", "--json")
    assert rows_of(capsys) == [{"name": "b", "full": 0.1, "charge": 1, "quota": 1_000, "owners": ["ann"]}]


def test_tables_say_it_in_words(run, capsys):
    run.names = [held("a", owners=["ann", "bob"], charge=800, case=case_of()), held("b")]
    run("who", "a", "free")
    assert [line.split() for line in capsys.readouterr().out.splitlines()[1:]] == [
        ["a", "held", "ann,", "bob", "800", "B", "of", "1000", "B", "of", "bob"], ["free", "free"]]
    run("names")
    assert [line.split()[-1] for line in capsys.readouterr().out.splitlines()] == ["case", "open", "B"]
    run("owned-by", "ann")
    assert ["alone" in line for line in capsys.readouterr().out.splitlines()] == [True, False, True]
    run("quotas")
    assert "80.0 %" in capsys.readouterr().out.splitlines()[1]


@pytest.mark.parametrize("words", [("case", "list"), ("case", "show", "a")])
def test_moments_are_whole_seconds(run, capsys, monkeypatch, words):
    run.names, run.desk.is_caller = [held("a", case=case_of(first=None))], "user"
    monkeypatch.setattr(cases, "time", types.SimpleNamespace(time=lambda: OPENED + 0.9))
    run(*words, "--json")
    found = rows_of(capsys)
    assert [it["earliest"] for it in (found if words[1] == "list" else [found])] == [OPENED + SIX_WEEKS]


def test_a_profile_is_shown_without_its_password_or_without_an_address(run, capsys, monkeypatch):
    profiles = {"a": {"url": "https://me:secret@x"}, "b": {"ca": "c"}}
    monkeypatch.setattr(tokens, "read_profiles", lambda: profiles)
    run("profile", "--json")
    assert rows_of(capsys) == [{"profile": "a", "url": "https://..@x"}, {"profile": "b", "ca": "c", "url": ""}]


def cases_are(run, *found, is_office=True):
    from indexctl.cases import case_row
    rows = [case_row(held(name), case_of(**more), OPENED + 5, None) for name, more in found]
    run.put("open_cases", lambda *_: (rows, is_office))


def test_a_case_is_shown_with_its_texts(run, capsys):
    run.names = [held("a", case=case_of())]
    cases_are(run, ("a", {"attempts": 4, "author": False}))
    run("case", "show", "a")
    out = capsys.readouterr().out
    for said in ("attempts   3 of 4 sent", "by         profile, pages", "tried      c", "why        y",
                 "opened     2001-09-09 01:46 UTC"):
        assert said in out
    run("case", "show", "a", "--json")
    assert rows_of(capsys)["candidate"] == "bob"


@pytest.mark.parametrize("case, said", [(None, "No case is open on a. It belongs to ann."),
                                        (case_of(), "The case of a has ended just now.")])
def test_a_case_that_is_not_there_is_told(run, case, said):
    run.names = [held("a", case=case)]
    cases_are(run)
    with pytest.raises(Stop, match=said) as end:
        run("case", "show", "a")
    assert end.value.status == REFUSED


@pytest.mark.parametrize("is_office", [True, False])
def test_a_list_of_cases_says_if_the_year_was_not_looked_at(run, capsys, is_office):
    cases_are(run, ("a", CASE), is_office=is_office)
    run("case", "list")
    out = capsys.readouterr()
    assert "3 of 3" in out.out and ("takes a token of the office" in out.err) != is_office


@pytest.mark.parametrize("caller, status", [("office", 0), ("user", 0), ("nobody", REFUSED)])
def test_a_token_check_says_who_asks_which_index(run, capsys, caller, status):
    run.desk.is_caller = caller
    assert run("token", "check", "--json") == status
    assert rows_of(capsys) == [{"url": SETTING.url, "from": "the environment", "token": "INDEX_TOKEN",
                                "caller": caller}]


def test_a_new_token_is_64_digits_with_its_digest(run, capsys):
    run("token", "new", "--json")
    row = rows_of(capsys)
    assert len(row["token"]) == 64 and row["digest"] == sha256(row["token"])


@pytest.mark.parametrize("given", [EOFError(), UnicodeDecodeError("utf-8", b"\xff", 0, 1, "invalid start byte")])
def test_a_token_that_nobody_types_or_that_is_no_text_has_no_digest(run, capsys, monkeypatch, given):
    monkeypatch.setattr(sys, "stdin", types.SimpleNamespace(isatty=lambda: True))
    monkeypatch.setattr(tokens.getpass, "getpass", raises(given))
    with pytest.raises(Stop, match="Type or pipe in one line of plain characters") as end:
        run("token", "digest")
    assert end.value.status == WRONG and not capsys.readouterr().out


def has(run, name, *files):
    """The name has these files: of each the name, the size, and the yank."""
    run.contents[name] = [FileRow(file, read_file_name(file).release, size, ">=3.8", yanked, "00")
                          for file, size, yanked in files]
    run.names.append(held(name, charge=sum(size for _, size, _ in files)))


FROB = [("frob-1.1.tar.gz", 2_048, ""), ("frob-1.0.tar.gz", 12, "loses <data>; \u202e\x1b[2J")]


def test_files_are_listed_with_sizes_yanks_and_digests(run, capsys):
    has(run, "frob", *FROB)
    has(run, "bare")
    run("files", "frob", "bare")
    head, first, second = capsys.readouterr().out.splitlines()
    assert head.split() == ["file", "release", "size", "python", "yanked", "sha256"]
    assert first.split() == ["frob-1.1.tar.gz", "1.1", "2.0", "KiB", ">=3.8", "yes", "00"]
    assert "loses <data>; \\u202e\\u001b[2J" in second and "\x1b" not in second
    run("files", "frob", "--json")
    assert rows_of(capsys)[1] == {"file": "frob-1.0.tar.gz", "release": "1.0", "size": 12, "python": ">=3.8",
                                  "yanked": FROB[1][2], "sha256": "00"}


def test_releases_are_listed_with_their_files(run, capsys):
    has(run, "frob", *FROB, ("frob-1.0-py3-none-any.whl", 8, FROB[1][2]), ("frob-0.9.tar.gz", 5, None))
    run("releases", "frob", "--json")
    assert [(row["release"], row["files"], row["size"], row["yanked"]) for row in rows_of(capsys)] == [
        ("1.1", ["frob-1.1.tar.gz"], 2_048, ""),
        ("1.0", ["frob-1.0.tar.gz", "frob-1.0-py3-none-any.whl"], 20, FROB[1][2]),
        ("0.9", ["frob-0.9.tar.gz"], 5, None)]
    run("releases", "frob")
    assert ["yes" in it for it in capsys.readouterr().out.splitlines()[1:]] == [True, False, False]


def test_a_status_has_all_of_a_name(run, capsys):
    has(run, "frob", *FROB)
    run.names = [held("frob", shown="Frob", owners=["ann", "eve"], charge=2_060, quota=4_096, case=case_of())]
    cases_are(run, ("frob", {"author": False}))
    run("status", "frob")
    out = capsys.readouterr().out
    for said in ("name    Frob", "owners  ann, eve", "quota   2.0 KiB of 4.0 KiB", "files   2 files", "frob-1.1.tar",
                 "yanked  2 releases", "case    of bob, to reuse the name", "lacks   an attempt by author",
                 "loses <data>; \\u202e"):
        assert said in out, out
    run("status", "frob", "--json")
    row = rows_of(capsys)
    assert (row["name"], row["state"], row["owners"], row["charge"], row["quota"]) == (
        "Frob", "held", ["ann", "eve"], 2_060, 4_096)
    assert row["case"]["lacks"][0] == "an attempt by author" and [it["size"] for it in row["files"]] == [2_048, 12]


def test_a_status_of_a_name_without_files_or_a_case_ends_there(run, capsys):
    has(run, "bare")
    run("status", "bare")
    out = capsys.readouterr()
    assert "0 files" in out.out and "case" not in out.out and "release  size" not in out.out and out.err == ""
    run.names = [Standing("evil", "prohibited", given={})]
    run("status", "evil")
    assert capsys.readouterr().out.split() == ["name", "evil", "state", "prohibited"]


@pytest.mark.parametrize("words", [("files", "frob"), ("releases", "frob"), ("status", "frob")])
def test_a_name_that_nobody_holds_has_no_contents(run, words):
    with pytest.raises(Stop, match="^Nobody holds frob.$") as end:
        run(*words)
    assert end.value.status == REFUSED


@pytest.mark.parametrize("file, said", [
    ("frob-1.1.tar.gz", "frob-1.1.tar.gz has 2.0 KiB, and is yanked."),
    ("frob-0.9.tar.gz", "frob-0.9.tar.gz has 5 B."),
    ("frob-1.2.tar.gz", "frob-1.2.tar.gz is not on the index. Did you mean `frob-1.1.tar.gz` or `frob-1.0.tar.gz`?"),
    ("frob-7.7.tar.gz", "frob-7.7.tar.gz is not on the index."),
    ("forb-1.0.tar.gz", "forb-1.0.tar.gz: Nobody holds forb.")])
@pytest.mark.parametrize("verb, what", [("delete", "deleted"), ("ban", "banned for good")])
def test_files_are_shown_before_they_go(run, verb, what, file, said):
    has(run, "frob", *FROB, ("frob-0.9.tar.gz", 5, None))
    run("file", verb, file)
    assert [*run.confirmed, *run.shown] == [f"{file} will be {what}. {said}"]


@pytest.mark.parametrize("name, release, said", [
    ("frob", "1.0", "Release 1.0 of frob will be yanked: frob-1.0.tar.gz."),
    ("frob", "1.O", "frob has no release 1.O. Did you mean `1.1` or `1.0`?"), ("frob", "3", "frob has no release 3."),
    ("forb", "1.0", "Nobody holds forb.")])
def test_a_release_is_shown_before_it_is_yanked(run, name, release, said):
    has(run, "frob", *FROB)
    run("release", "yank", name, release)
    assert run.shown == [said]
