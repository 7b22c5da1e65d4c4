"""What a name has, as indexctl shows it, and what it shows and asks before files and releases go."""
from __future__ import annotations

import time

import pytest
from support.indexctl.control import DAY, Control, assert_ends, filled, line, upload_line, user_lines
from support.indexctl.terminal import lines_of, on_terminal
from support.packages import wheel_name
from support.planted import catches
from support.serving import Index, sha256

HOSTILE = "loses <data>; \u202e use 1.0 \U0001f4a5"
WHEEL = wheel_name("frob", "1.10")


def lines_before(now):
    yield from user_lines("ann", "bob")
    yield line(now - 500 * DAY, "ann", "claim", name="Frob")
    yield line(now - 500 * DAY, "ann", "claim", name="bare")
    yield line(now - 500 * DAY, "office", "prohibit", name="evil")
    for file, size in (("frob-1.9.tar.gz", 9), ("frob-1.10.tar.gz", 2_048), (WHEEL, 10)):
        yield upload_line(now - 400 * DAY, "ann", file, size)
    yield line(now - 300 * DAY, "ann", "yank", name="frob", release="1.9", reason=HOSTILE)
    yield line(now - 20 * DAY, "bob", "open_case", name="frob", kind="reuse", contact="c", work="w", why="y")


@pytest.fixture
def by(program, folder):
    path = filled(program, f"{folder}/index.db", lines_before(int(time.time())))
    with Index(program, path=path) as index:
        yield Control(folder, f"http://127.0.0.1:{index.port}")


@catches("indexctl/contents.py", "return sorted(rows, key=lambda it: order(it.release), reverse=True)",
         "return sorted(rows, key=lambda it: it.release, reverse=True)",
         also=["test_releases_come_newest_first_with_the_reason_of_a_yank",
               "indexctl/test_unit_contents.py::test_the_newest_release_comes_first_and_its_files_by_their_names"])
def test_files_come_with_releases_sizes_yanks_and_digests(by):
    rows = by.rows("files", "FROB", "bare")
    assert [(row["file"], row["release"], row["size"], row["yanked"]) for row in rows] == [
        (WHEEL, "1.10", 10, None), ("frob-1.10.tar.gz", "1.10", 2_048, None), ("frob-1.9.tar.gz", "1.9", 9, HOSTILE)]
    assert rows[2]["sha256"] == sha256(bytes(9))
    ended = by.run("files", "frob")
    assert_ends(ended, 0, "loses <data>; \\u202e use 1.0 \U0001f4a5", "2.0 KiB")
    assert "\u202e" not in ended.stdout


def test_releases_come_newest_first_with_the_reason_of_a_yank(by):
    assert [(row["release"], row["files"], row["yanked"]) for row in by.rows("releases", "frob")] == [
        ("1.10", [WHEEL, "frob-1.10.tar.gz"], None), ("1.9", ["frob-1.9.tar.gz"], HOSTILE)]


@catches("indexctl/commands/contents.py",
         "cases[0] if cases else None, find_contents(desk.index, found.name, is_fresh=True) or [])", "None, [])",
         also=["indexctl/test_unit_shown.py::test_a_status_has_all_of_a_name"])
def test_a_status_shows_owners_quota_case_files_and_yanks(by):
    ended = by.run("status", "frob", INDEX_TOKEN=None)
    assert_ends(ended, 0, "Frob", "ann", "2.0 KiB of 1.0 GiB", "of bob, to reuse the name", "not begun",
                "3 more attempts sent", "3 files", "1 release", "\\u202e")
    row = by.rows("status", "frob")
    assert (row["name"], row["owners"], row["charge"], row["case"]["candidate"]) == ("Frob", ["ann"], 2_067, "bob")
    assert len(row["files"]) == 3 and by.rows("status", "evil")["state"] == "prohibited"


@catches("indexctl/near.py", "found = near(text, known)[:MOST_SHOWN]", "found = near(text, known)[:0]",
         also=["test_a_person_is_shown_what_will_go_and_asked[a_slip_in_a_file]",
               "test_a_person_is_shown_what_will_go_and_asked[a_slip_in_a_release]",
               "test_a_person_is_shown_what_will_go_and_asked[a_slip_in_a_name]"])
@pytest.mark.parametrize("words", [("files", "forb"), ("releases", "forb"), ("status", "forb")])
def test_a_slip_in_a_name_is_answered_by_the_name(by, words):
    assert_ends(by.run(*words), 1, "Nobody holds forb. Did you mean `Frob`?")


ASKS = {
    "delete": (("file", "delete", "frob-1.9.tar.gz"), "frob-1.9.tar.gz has 9 B, and is yanked.", "ann"),
    "ban": (("file", "ban", "frob-1.9.tar.gz"), "frob-1.9.tar.gz has 9 B, and is yanked.", "office"),
    "yank": (("release", "yank", "frob", "1.10"), f"will be yanked: {WHEEL}, frob-1.10.tar.gz.", "ann"),
    "a_slip_in_a_file": (("file", "delete", "frob-1.8.tar.gz"), "Did you mean `frob-1.9.tar.gz`?", "ann"),
    "a_slip_in_a_release": (("release", "yank", "frob", "1.8"), "Did you mean `1.9`?", "ann"),
    "a_slip_in_a_name": (("file", "ban", "forb-1.9.tar.gz"), "Nobody holds forb. Did you mean `Frob`?", "office")}


@catches("indexctl/commands/files.py",
         '''confirm_on_terminal(args, f"{', '.join(projects)} will be deleted. {tell_files(desk.index, '''
         'projects)}")', "tell_files(desk.index, projects)",
         ("indexctl/commands/releases.py", "confirm_on_terminal(args, tell_releases(desk.index, pairs))",
          "tell_releases(desk.index, pairs)"), case="delete",
         also=["test_a_person_is_shown_what_will_go_and_asked[yank]"])
@pytest.mark.parametrize("what", ASKS)
def test_a_person_is_shown_what_will_go_and_asked(by, what):
    words, said, caller = ASKS[what]
    before = by.rows("files", "frob")
    status, seen = on_terminal(by, *words, types="no\n", INDEX_TOKEN=caller)
    assert status == 2 and said in " ".join(lines_of(seen)) and "Nothing was done." in seen, seen
    assert by.rows("files", "frob") == before


@catches("indexctl/terminal.py", 'if answer.strip() != "yes":', 'if answer.strip() != "":')
@pytest.mark.parametrize("what, types", [("delete", "yes\n"), ("yank", "yes\n")])
def test_a_person_who_means_it_types_yes(by, what, types):
    words, _, caller = ASKS[what]
    status, seen = on_terminal(by, *words, types=types, INDEX_TOKEN=caller)
    assert status == 0 and "accepted" in seen, seen


@catches("indexctl/terminal.py",
         '"""Asks a person alone: a script, which has no terminal, goes on as if it had said --yes."""',
         "confirm(args, sentence)")
@pytest.mark.parametrize("what", ["delete", "yank"])
def test_a_script_is_not_asked(by, what):
    words, _, caller = ASKS[what]
    assert_ends(by.run(*words, caller=caller), 0, "accepted")
