"""What a refusal says to do, with what its sentence names looked up."""
from __future__ import annotations

import json

import pytest
from indexctl import refusals
from indexctl.ends import UNREACHED, Stop
from indexctl.units import YEAR, due
from package_index.hints import HINTS
from support.indexctl.rows import CASE, OPENED, FakeIndex, case_of, held, reply
from support.planted import catches

HELD = {"name": "frob", "state": "held", "shown": "Frob", "owners": ["ann", "bea"], "quota": 2048, "charge": 1024,
        "case": {**CASE, "sent": 2}}
FILES = {"files": [{"filename": "a-1.tar.gz"}, {"filename": "a-2.tar.gz"}]}


def index_of(*values):
    return FakeIndex(*(reply(200, json.dumps(it).encode()) for it in values))


def said(answer, *values, **row):
    return refusals.hint_of(index_of(*values), answer, row)


def test_a_token_says_where_it_is_from():
    assert "which comes from INDEX_TOKEN." in said("BadToken")


def test_a_user_is_named():
    assert said("NoUser", user="bob").startswith("There is no user bob.")
    assert said("NoUser").startswith("There is no user ...")


@catches("indexctl/refusals.py", 'if answer == "NoUser" and is_swapped(index, row):', "if False:")
@pytest.mark.parametrize("do, verb", [("add_owner", "add"), ("remove_owner", "remove")])
def test_a_user_and_a_project_that_changed_places_are_told(do, verb):
    """`owner add frob bob`"""
    wanted = f"frob is a project. Did you mean `indexctl owner {verb} bob frob`?"
    assert said("NoUser", HELD, do=do, user="frob", name="bob") == wanted
    free = {"name": "frob", "state": "free"}
    for row, values in (({"user": "frob", "name": "bob"}, [free]), ({"user": "frob", "name": "Not-A-User"}, [])):
        assert said("NoUser", *values, do=do, **row).startswith("There is no user frob.")
    assert said("NoUser", do="set_token", user="frob").startswith("There is no user frob.")


@pytest.mark.parametrize("row", [{"name": "frob"}, {"file": "frob-1.0.tar.gz"}, {"name": "frob", "file": "x-1.tar.gz"}])
def test_owners_are_looked_up_by_the_name_or_the_file(row):
    index = index_of(HELD)
    assert refusals.hint_of(index, "NameHeld", row).startswith(
        "It belongs to ann, bea. Ask for `indexctl owner add YOU frob`")
    assert [it.path for it in index.asked] == ["/names/frob"]


def test_a_quota_and_a_charge_are_told_in_words():
    assert "full: 1.0 KiB of 2.0 KiB." in said("OverQuota", HELD, name="frob")


@pytest.mark.parametrize("answer", ["OverQuota", "FilesRemain"])
def test_who_has_to_delete_files_is_told_what_lists_them(answer):
    assert "`indexctl files frob` lists them" in said(answer, HELD if answer == "OverQuota" else FILES, name="frob")


LISTED = {"projects": [{"name": "frob"}, {"name": "spam"}]}
SLIPS = [({"do": "yank", "name": "forb"}, "Nobody holds forb. Did you mean `frob`?"),
         ({"do": "add_owner", "name": "other"}, "Nobody holds other. `indexctl names` lists all names."),
         ({"do": "delete", "file": "forb-1.0.tar.gz"},
          "Nobody holds forb. Did you mean `frob`? A file's name has `_` for the hyphens of its project's name.")]


@pytest.mark.parametrize("row, told", SLIPS)
def test_who_mistypes_a_name_is_not_led_to_claim_it(row, told):
    assert said("NoProject", LISTED, **row) == told


def test_who_uploads_to_a_name_that_nobody_holds_is_told_to_claim_it():
    assert "claim it first, by `indexctl name claim frob`" in said("NoProject", do="upload", file="frob-1.0.tar.gz")


def test_a_candidate_is_told_of_closing_a_case_alone():
    assert said("NotOffice", do="set_quota") == "Only a user of the office may do this."
    assert said("NotOffice", do="close_case").endswith(" A case may be closed by its candidate too.")


def test_files_and_releases_are_counted():
    assert said("FilesRemain", FILES, name="frob").startswith("It still has 2 files.")
    assert "The name has 2, 1." in said("NoRelease", FILES, name="frob")
    assert "The name has no files at all." in said("NoRelease", {"files": []}, name="frob")


def test_what_a_case_lacks_is_told():
    assert "1 more attempt sent" in said("TooFewAttempts", HELD, name="frob")
    whole = {**HELD, "case": {**CASE, "opened": 1, "first": 1}}
    assert said("TooEarly", whole, name="frob") == "It lacks nothing that this clock sees."
    assert said("CaseOpen", HELD, name="frob").startswith("bob has opened a case")


def test_nothing_is_looked_up_that_no_sentence_names():
    index = index_of()
    assert refusals.hint_of(index, "NameProhibited", {"name": "frob"}) == HINTS["NameProhibited"]
    assert index.asked == []


def test_a_refusal_stands_though_nothing_more_can_be_looked_up(monkeypatch):
    def fail(*_):
        raise Stop(UNREACHED, "x")
    monkeypatch.setattr(refusals, "find_standing", fail)
    said_then = refusals.hint_of(FakeIndex(), "NameHeld", {"name": "frob"})
    assert said_then.startswith("It belongs to ... Ask for `indexctl owner add YOU frob`")


def test_what_is_no_refusal_has_no_hint():
    assert said("Other", name="frob") == ""


def test_the_year_ends_a_year_after_the_opening():
    known = refusals.known_of_standing(held(case=case_of()))
    assert (known["latest"], known["candidate"]) == (due(OPENED + YEAR), "bob")


def test_a_name_that_nobody_holds_is_nobody_s():
    assert refusals.known_of_standing(held(owners=[]))["owners"] == "nobody"
