"""Lines of JSON: one form for each command that changes or makes something."""
from __future__ import annotations

import json

import pytest
from indexctl.command_line import load
from indexctl.ends import REFUSED, UNREACHED, Stop
from support.indexctl.rows import held
from support.planted import catches
from support.unit import raises

# what prints a text for a shell or a person, or the file that holds the settings
WITHOUT = {"help", "completion", "man"}
TOKEN = 64


@catches("indexctl/commands/names.py", '@command("name relinquish", NAME, YES, JSON_LINES)',
         '@command("name relinquish", NAME, YES)')
@pytest.mark.parametrize("it", [it for it in load() if it.path not in WITHOUT], ids=lambda it: it.path)
def test_each_command_prints_json(it):
    assert "--json" in [name for given in it.arguments for name in given.names]


def rows(capsys):
    """The lines of standard output, each a row."""
    return [json.loads(line) for line in capsys.readouterr().out.splitlines()]


def test_a_row_is_printed_in_place_of_the_text_and_a_sum_to_standard_error(run, capsys):
    run.desk.is_json = True
    run.desk.say("done", {"do": "x"})
    run.desk.say("2 done")
    out = capsys.readouterr()
    assert (out.out, out.err) == ('{"do": "x"}\n', "2 done\n")


def test_what_can_t_be_printed_as_json_is_told_on_standard_error(run, capsys, monkeypatch):
    monkeypatch.setattr("indexctl.terminal.put", raises(OSError(28, "No space left on device")))
    run.desk.is_json = True
    with pytest.raises(OSError):
        run.desk.say("done", {"do": "add_user", "token": "secret"})
    assert capsys.readouterr().err == "done\n", "and no token"


def test_what_is_left_for_the_server_is_a_row(run, capsys):
    run.desk.is_json = True
    run("file", "delete", "frob-1!2.0.tar.gz", "--json")
    out = capsys.readouterr()
    assert json.loads(out.out) == {"do": "uncache", "name": "frob", "file": "frob-1!2.0.tar.gz",
                                   "run": "index-uncache frob 'frob-1!2.0.tar.gz'"}
    assert out.err == "On the server, take out of nginx what it has cached:\n"


@pytest.mark.parametrize("words, do", [(("add", "eve", "bob"), "add_user"), (("rotate", "eve"), "set_token")])
def test_a_token_is_in_the_row_of_its_user_alone(run, capsys, words, do):
    shown = []
    change = run.desk.change

    def keep(what, row, token=None, more=None, shown=None):
        kept.append((row["do"], row["user"], shown))
        return change(what, row, token, more)
    kept, run.desk.change, run.desk.is_json = [], keep, True
    run("user", *words, "--json")
    assert [it[:2] for it in kept] == [(do, it) for it in words[1:]]
    assert all(len(it[2]["token"]) == TOKEN for it in kept) and not shown
    assert capsys.readouterr().out == "", "the row has it, and no sentence"


def test_a_token_that_the_user_has_made_is_in_no_row(run):
    def keep(what, row, token=None, more=None, shown=None):
        assert shown == {}
        return True
    run.desk.change, run.desk.is_json = keep, True
    assert run("user", "add", "eve", "--digest", "0" * 64, "--json") == 0


@pytest.mark.parametrize("status, is_printed", [(UNREACHED, True), (REFUSED, False)])
def test_a_token_that_the_user_may_have_now_is_a_row(run, capsys, status, is_printed):
    run.desk.change, run.desk.is_json = raises(Stop(status, "No reply.")), True
    with pytest.raises(Stop):
        run("user", "rotate", "eve", "--json")
    found = rows(capsys)
    assert [(it["do"], it["user"], it["answer"], len(it["token"])) for it in found] == (
        [("set_token", "eve", "unknown", TOKEN)] if is_printed else [])


MANY = {("case", "answer", "a", "b"): {"do": "answer_case"}, ("case", "close", "a", "b"): {"do": "close_case"},
        ("case", "attempt", "a", "b", "pages"): {"do": "record_attempt", "means": "pages", "sent": True},
        ("case", "transfer", "a", "b", "--quiet"): {"do": "transfer", "quiet": True},
        ("quota", "set", "a", "b", "+1KiB"): {"do": "set_quota", "quota": 2_024}}


@catches("indexctl/commands/names.py", 'desk.change(what.format(name), {"do": do, "name": name, **row})',
         'desk.change(what.format(name), {"do": do, "name": args.names[0], **row})')
@pytest.mark.parametrize("words", MANY, ids=" ".join)
def test_many_names_are_asked_for_in_one_run(run, words):
    run.names = [held("a"), held("b")]
    assert run.asked(*words) == [{**MANY[words], "name": it} for it in "ab"]


@catches("indexctl/commands/listings.py", "for found in [held(desk.index, it) for it in args.names]:",
         "for found in (held(desk.index, it) for it in args.names):")
def test_a_slip_in_a_name_changes_no_quota(run):
    run.names = [held("a")]
    with pytest.raises(Stop, match="^Nobody holds b.$"):
        run("quota", "set", "a", "b", "1GiB")
    assert not run.desk.asked


@catches("indexctl/commands/cases.py", 'confirm(args, " ".join(passes))', "confirm(args, passes[0])")
def test_transfers_of_several_names_are_asked_about_once(run):
    from support.indexctl.rows import case_of
    run.names = [held("a", case=case_of()), held("b"), held("c", case=case_of(candidate="eve"))]
    run("case", "transfer", "a", "b", "c", "--quiet")
    assert run.confirmed == ["a passes from ann to bob, for good. c passes from ann to eve, for good."]
