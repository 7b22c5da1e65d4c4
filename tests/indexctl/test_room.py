"""What a deletion, a ban and a prohibition leave: of old nightly builds, on the next list, and in nginx's cache."""
from __future__ import annotations

import os
import subprocess
import sys

import pytest
from support.indexctl.control import Control, assert_ends, environment, filled, line, upload_line, user_lines
from support.indexctl.terminal import lines_of, on_terminal
from support.places import BIN
from support.planted import catches
from support.serving import Index

pytestmark = pytest.mark.xdist_group("room")
NIGHTLY = ["1.0", "1.1.dev1", "1.1.dev2", "1.1.dev3", "1.1.dev10", "1.1"]
BOTH = ["frob-1.0-py3-none-any.whl", "frob-1.0.tar.gz"]
ROOM = "release", "delete", "nightly", "--keep", "1", "--matching", "*.dev*"


def lines():
    yield from user_lines("ann")
    for name in ("nightly", "frob", "spam"):
        yield line(1, "ann", "claim", name=name)
    for release in reversed(NIGHTLY):
        yield upload_line(2, "ann", f"nightly-{release}.tar.gz", 1_000)
    for file in (*BOTH, "spam-1.0.tar.gz"):
        yield upload_line(2, "ann", file, 5)


@pytest.fixture
def by(program, folder):
    with Index(program, path=filled(program, f"{folder}/index.db", lines())) as index:
        yield Control(folder, f"http://127.0.0.1:{index.port}")


def releases(by):
    return [row["release"] for row in by.rows("releases", "nightly")]


def test_old_nightly_builds_go_and_their_room_counts_again(by):
    ended = by.run(*ROOM, "--yes", caller="ann")
    assert_ends(ended, 0, *(f"delete nightly-1.1.dev{at}.tar.gz: accepted" for at in (1, 2, 3)))
    assert releases(by) == ["1.1", "1.1.dev10", "1.0"]
    assert by.rows("quota", "show", "nightly")[0]["charge"] == 3_000
    assert_ends(by.run(*ROOM, "--yes", caller="ann"), 0, "There is nothing to delete.")


@catches("indexctl/commands/releases.py", "confirm(args, tell_room(args, rows))", "pass",
         also=["indexctl/test_unit_room.py::test_the_releases_are_shown_before_they_go"])
def test_a_script_that_does_not_say_yes_deletes_nothing_and_is_shown_what_would_go(by):
    ended = by.run(*ROOM, caller="ann")
    assert_ends(ended, 2, "nightly 1.1.dev1: nightly-1.1.dev1.tar.gz, 1000 B", "3 releases with 3 files, 2.9 KiB, will "
                "be deleted. Nothing was done.", "--yes")
    assert len(releases(by)) == 6


@catches("indexctl/commands/releases.py", "if not args.yes:", "if False:",
         also=["indexctl/test_unit_room.py::test_the_releases_are_shown_before_they_go"])
def test_a_person_is_shown_the_releases_and_types_yes(by):
    status, seen = on_terminal(by, *ROOM, types="yes\n", INDEX_TOKEN="ann")
    assert status == 0 and "nightly 1.1.dev3: nightly-1.1.dev3.tar.gz, 1000 B" in lines_of(seen), seen
    assert len(releases(by)) == 3


@catches("indexctl/commands/releases.py", "for file in (it for row in rows for it in row.files):",
         "for file in [row.files[0] for row in rows[:0]]:",
         also=["indexctl/test_unit_room.py::test_a_refusal_leaves_the_others_to_go"])
def test_another_s_releases_stay(by):
    assert_ends(by.run("release", "delete", "nightly", "1.0", "--yes", caller="office"), 1, "NotOwner", "ann")
    assert len(releases(by)) == 6


@pytest.fixture
def front(program, open_folder, certificate, folder):
    """nginx, which keeps pages for a minute, before an index whose files it has fetched; and indexctl for that."""
    from support.server.front import Front
    path, name = filled(program, f"{folder}/index.db", lines()), folder.rpartition("/")[2]
    with Index(program, path=path) as index, Front(f"{open_folder}/{name}", certificate, index.port,
                                                   page_seconds=60) as front:
        front.by = Control(folder, front.url, certificate)
        for file in (*BOTH, "spam-1.0.tar.gz"):
            assert front.ask("GET", f"/files/{file.partition('-')[0]}/{file}")[0] == 200
        yield front


@catches("indexctl/commands/contents.py", "found = find_contents(index, name, is_fresh=True)",
         "found = find_contents(index, name)",
         ("indexctl/commands/contents.py", "find_contents(desk.index, found.name, is_fresh=True) or [])",
          "find_contents(desk.index, found.name) or [])"), case="delete",
         also=["test_what_just_went_is_on_no_list[ban]"])
@pytest.mark.parametrize("words, caller", [(("delete",), "ann"), (("ban", "--yes"), "office")], ids=["delete", "ban"])
def test_what_just_went_is_on_no_list(front, words, caller):
    """nginx has the page of a moment before."""
    by = front.by
    assert front.ask("GET", "/simple/frob/", Accept="application/vnd.pypi.simple.v1+json")[0] == 200
    assert len(by.rows("files", "frob")) == 2
    assert_ends(by.run("file", *words, BOTH[0], caller=caller), 0)
    assert [row["file"] for row in by.rows("files", "frob")] == BOTH[1:]
    assert by.rows("releases", "frob")[0]["files"] == BOTH[1:]
    assert [row["file"] for row in by.rows("status", "frob")["files"]] == BOTH[1:]


def uncached(front, ended):
    """Runs the index-uncache lines that a run printed, as on the server."""
    found = [it.split() for it in ended.stdout.splitlines() if it.startswith("index-uncache ")]
    for _, *words in found:
        cache = ["--cache", f"{front.folder}/cache/index-files"]
        ran = subprocess.run([sys.executable, f"{BIN}/index-uncache", *cache, *words], stdout=subprocess.PIPE,
                             stderr=subprocess.STDOUT, text=True, env=environment(PATH=os.environ["PATH"]), timeout=60)
        assert ran.returncode == 0, ran.stdout
    return len(found)


@catches("indexctl/commands/files.py", "tell_served(desk, banned)", "pass", case="ban",
         also=["indexctl/test_unit_commands.py::test_of_what_was_banned_it_is_told_whether_it_still_goes_out"])
@catches("indexctl/commands/names.py", "tell_served(desk, gone)", "pass", case="prohibit")
@pytest.mark.slow
@pytest.mark.parametrize("words", [("file", "ban", *BOTH), ("name", "prohibit", "frob")], ids=["ban", "prohibit"])
def test_of_what_nginx_still_serves_it_is_told_until_its_line_is_run(front, words):
    ended = front.by.run(*words, "--yes")
    assert_ends(ended, 0, *(f"{it}: {front.url} still serves it, out of nginx's cache" for it in BOTH))
    assert [front.ask("GET", f"/files/frob/{it}")[0] for it in BOTH] == [200, 200]
    assert uncached(front, ended) == 2
    assert [front.ask("GET", f"/files/frob/{it}")[0] for it in BOTH] == [404, 404]
    if words[1] == "ban":
        again = front.by.run(*words, "--yes")
        assert_ends(again, 0, *(f"{it}: {front.url} serves it no more" for it in BOTH))
        assert "still" not in again.stdout
