"""An owner hears of a case on a name: by the list of what is owned, and by an upload, which ends it."""
from __future__ import annotations

import pytest
from support.indexctl.control import Control, assert_ends, filled, line, put, user_lines
from support.indexctl.projects import wheel_of
from support.packages import wheel_name
from support.planted import catches
from support.serving import Index

TEXTS = {"contact": "a", "work": "b", "why": "c"}


@pytest.fixture
def ann(program, folder):
    """indexctl on an index on which bob has opened a case on frob, of ann; ham is hers too."""
    lines = [*user_lines("ann", "bob"), line(2, "ann", "claim", name="frob"), line(2, "ann", "claim", name="ham"),
             line(3, "bob", "open_case", name="frob", kind="reuse", **TEXTS)]
    with Index(program, path=filled(program, f"{folder}/told.db", lines)) as index:
        yield Control(folder, f"http://127.0.0.1:{index.port}", INDEX_TOKEN="ann")


def wheel_in(folder, name, version="1.0"):
    path = put(f"{folder}/dist/{wheel_name(name, version)}", "")
    with open(path, "wb") as made:
        made.write(wheel_of(name, version, ""))
    return path


@catches("indexctl/commands/listings.py", "it.case.candidate if it.case else None)", "None)")
def test_the_list_of_what_is_owned_has_the_case(ann):
    assert [(it["name"], it["case"]) for it in ann.rows("owned-by", "ann")] == [("frob", "bob"), ("ham", None)]
    assert_ends(ann.run("owned-by", "ann"), 0, "of bob")


@catches("indexctl/commands/work.py", "tell_ended(desk, cases, file.project)", "pass")
def test_an_upload_tells_of_the_case_and_that_it_ended(ann, folder):
    wheel = wheel_in(folder, "frob")
    assert_ends(ann.run("upload", wheel), 0, "frob: the case of bob has ended by this upload.",
                "frob: bob has opened a case on this name, to reuse it. An upload ends it.")
    again = ann.run("upload", wheel)
    assert_ends(again, 0, "is there already")
    assert "case" not in again.stdout


@catches("indexctl/commands/work.py", "cases = {project: case for project, case in found.items() if case}",
         'cases = {project: case or find_standing(desk.index, "frob").case for project, case in found.items()}')
def test_an_upload_to_another_name_tells_of_no_case(ann, folder):
    ended = ann.run("upload", wheel_in(folder, "ham"))
    assert_ends(ended, 0, "1 of 1 files are there")
    assert "case" not in ended.stdout


@catches("indexctl/commands/work.py", "if case and find_standing(desk.index, project).case is None:", "if case:")
def test_an_upload_that_is_refused_ends_no_case(ann, folder):
    ended = ann.run("upload", wheel_in(folder, "frob"), INDEX_TOKEN="bob")
    assert_ends(ended, 1, "NotOwner", "bob has opened a case")
    assert "has ended" not in ended.stdout
