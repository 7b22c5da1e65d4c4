"""A user who leaves, at an index behind nginx, which keeps the list of names for a while."""
from __future__ import annotations

import pytest
from support.indexctl.control import Control, assert_ends, filled, line, rows_of, user_lines
from support.planted import catches
from support.serving import Index

pytestmark = pytest.mark.xdist_group("leave")


@catches("indexctl/standings.py", 'if is_fresh else ""', 'if not path else ""',
         also=["indexctl/test_unit_standings.py::test_a_fresh_page_is_asked_for_as_nobody_asked_before"])
def test_a_name_claimed_a_moment_ago_is_passed_on(program, open_folder, certificate):
    from support.server.front import Front
    path = filled(program, f"{open_folder}/leave.db", user_lines("bob", "eve"))
    with Index(program, path=path) as index:
        # longer than on a busy machine all of this takes
        with Front(f"{open_folder}/leave-front", certificate, index.port, page_seconds=600) as front:
            by = Control(open_folder, front.url, certificate)
            # nginx keeps this list, in which the name is not
            assert_ends(by.run("names"), 0)
            assert_ends(by.run("name", "claim", "frob", caller="eve"), 0)
            assert_ends(by.run("user", "leave", "eve", "--to", "bob", "--yes"), 0, "frob: remove owner eve")
    assert rows_of(path, "SELECT name, user FROM owners") == [("frob", "bob")]


@catches("indexctl/commands/users.py", "if found.case and found.case.candidate == user:", "if found.case and not user:",
         also=["indexctl/test_unit_commands.py::test_the_cases_of_a_user_who_leaves_are_closed"])
def test_a_name_does_not_pass_to_who_has_left(program, folder):
    texts = {"kind": "reuse", "contact": "a", "work": "b", "why": "c"}
    path = filled(program, f"{folder}/cases.db", [
        *user_lines("ann", "bob", "eve"), *(line(1, "ann", "claim", name=it) for it in ("frob", "spam")),
        line(2, "eve", "open_case", name="frob", **texts), line(2, "bob", "open_case", name="spam", **texts)])
    with Index(program, path=path) as index:
        by = Control(folder, f"http://127.0.0.1:{index.port}")
        assert_ends(by.run("user", "leave", "eve"), 2, "The cases that eve opened, of frob, will be closed")
        assert_ends(by.run("user", "leave", "eve", "--yes"), 0, "case of frob: close: accepted")
    assert rows_of(path, "SELECT name, candidate FROM cases") == [("spam", "bob")]
