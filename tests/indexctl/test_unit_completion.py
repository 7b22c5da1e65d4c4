"""What a command line asks the index for as it is typed."""
from __future__ import annotations

import argparse
import json

import pytest
from indexctl import completion
from indexctl.command_line import Command, argument
from support.indexctl.rows import FakeIndex, reply


def test_after_a_command_come_choices_and_options():
    made = Command("noun verb", "does this", (argument("means", choices=("a", "b")), argument("-q", "--quiet"),
                                              argument("name"), argument("--kind", choices=("x",))), lambda _: None)
    assert completion.completed(made) == ["a", "b", "--help", "--profile", "--again", "--quiet", "--kind"]


def test_of_a_command_with_a_name_the_index_is_asked():
    asking = Command("show", "x", (argument("name", metavar="NAME"), argument("means", choices=("a",))), lambda _: None)
    other = Command("noun list", "x", (argument("--json"), argument("folder", metavar="DIR")), lambda _: None)
    lines = completion.script_of([asking, other, Command("man", "x", (), lambda _: None)], "bash").splitlines()
    assert [it.split(")")[0].strip() for it in lines if "asks=yes" in it] == ['" show"']
    assert [it.strip() for it in lines if '" noun")' in it and "offers=" in it] == ['" noun") offers="list" ;;']


@pytest.mark.parametrize("text, given, kind, profile", [
    ("who ", [], "NAME", None), ("who a b", ["a"], "NAME", None), ("case attempt ", [], "NAME", None),
    ("case attempt a ", ["a"], "NAME", None), ("quota set a b ", ["a", "b"], "NAME", None),
    ("release yank a 1", ["a"], "RELEASE", None),
    ("release yank --profile x a ", ["a"], "RELEASE", "x"), ("release yank a --yes ", ["a"], "RELEASE", None),
    ("who --profile = x a ", ["a"], "NAME", "x"), ("release yank --reason b a ", ["a"], "RELEASE", None),
    ("owner add ann ", ["ann"], "NAME", None), ("owner add ", [], "USER", None), ("file delete ", [], "FILE", None),
    ("upload a", [], "PATH", None), ("case list --json a", None, None, None), ("status a ", None, None, None),
    ("release yank a 1 ", ["a", "1"], "RELEASE", None), ("who --profile ", None, None, None), ("who", None, None, None),
    ("release", None, None, None), ("", None, None, None), ("nothing here ", None, None, None)])
def test_a_line_says_what_is_typed(text, given, kind, profile):
    found = completion.read_line(text.split(" "))
    wanted = None if given is None else (given, kind, profile)
    assert (found and (found.given, found.kind, found.profile)) == wanted
    assert found is None or found.typed == text.rpartition(" ")[2]


def listed(*names):
    return reply(200, json.dumps({"projects": [{"name": it} for it in names]}).encode())


def page(*files):
    return reply(200, json.dumps({"files": [{"filename": it, "hashes": {}} for it in files]}).encode())


def typed(text, *given):
    return completion.Line(list(given), text, "", None)


def test_names_come_in_their_order_by_how_they_begin():
    index = FakeIndex(listed("fr.f", "Fr_b", "frog", "fr-D", "afr-a", "fr-a", "FR-C", "fr-e"))
    assert completion.names_that_begin(index, typed("FR_")) == ["fr-a", "fr-b", "fr-c", "fr-d", "fr-e", "fr-f"]


def test_files_are_those_of_each_name_that_may_be_meant():
    index = FakeIndex(listed("frob-1x", "Frob", "fro", "x-frob"), page("frob-2.tar.gz", "frob-1.1.whl", "frob-1.0.whl"),
                      page("frob_1x-1.whl"))
    assert completion.files_that_begin(index, typed("frob-1")) == ["frob-1.0.whl", "frob-1.1.whl"]
    assert [it.path for it in index.asked] == ["/simple/", "/simple/frob/", "/simple/frob-1x/"]


def test_of_many_names_only_the_beginnings_of_files_are_told():
    names = [f"fr-{at:03}" for at in range(completion.MOST_PROJECTS + 1)]
    index = FakeIndex(listed(*reversed(names)))
    assert completion.files_that_begin(index, typed("fr")) == [f"{it.replace('-', '_')}-" for it in names]


def test_releases_are_those_that_begin_so():
    index = FakeIndex(page("frob-1.0.whl", "frob-1.0rc1.tar.gz", "frob-2.0.tar.gz"))
    assert completion.releases_that_begin(index, typed("1.0R", "frob")) == ["1.0rc1"]
    assert [it.path for it in index.asked] == ["/simple/frob/"]


def test_the_script_is_printed_or_what_the_index_has(monkeypatch, capsys):
    monkeypatch.setattr(completion, "found_in_time", lambda it: [it.kind, "b"])
    for words, told in (([], completion.script_of(completion.load(), "zsh")), (["who", "a"], "NAME\nb\n"),
                        (["upload", "a"], ""), (["case", "list", "a"], ""),
                        (["case", "attempt", "p"], "NAME\nb\n"),
                        (["case", "attempt", "a", "p"], "NAME\nb\nprofile\npages\n")):
        completion.completion(argparse.Namespace(words=words, shell="zsh"))
        assert capsys.readouterr().out == told
