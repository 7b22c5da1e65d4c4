"""Which releases go if some of the newest stay."""
from __future__ import annotations

import datetime

import pytest
from indexctl.contents import FileRow, ReleaseRow
from indexctl.ends import REFUSED, WRONG, Stop
from indexctl.room import day_of, older_than, releases_over
from indexctl.versions import order
from support.planted import catches

TODAY = datetime.date(2026, 11, 30)
ENDS = "-py3-none-any.whl", ".tar.gz"
# in the order of PEP 440, the newest first
NIGHTLY = ["1.2", "1.1", "1.1.dev10", "1.1.dev3", "1.1.dev2", "1.1.dev1", "1.0"]


def rows(*releases, yanked=()):
    made = [ReleaseRow("frob", it, [f"frob-{it}.tar.gz"], 1, "" if it in yanked else None) for it in releases]
    return sorted(made, key=lambda it: order(it.release), reverse=True)


def over(found, *given):
    return [it.release for it in releases_over(found, *given)]


@catches("indexctl/room.py", "return found[at:]", "return found[:at]",
         also=["indexctl/test_room.py::test_old_nightly_builds_go_and_their_room_counts_again"])
@catches("indexctl/room.py", "and fnmatchcase(it.release, pattern.lower())]", "]",
         also=["indexctl/test_room.py::test_a_person_is_shown_the_releases_and_types_yes"])
@pytest.mark.parametrize("keep, pattern, gone", [
    (1, "*.dev*", ["1.1.dev3", "1.1.dev2", "1.1.dev1"]), (4, "*.dev*", []), (9, "*", []), (7, "*", []),
    (6, "*", ["1.0"]), (2, "*", NIGHTLY[2:]), (0, "1.1.DEV?", ["1.1.dev3", "1.1.dev2", "1.1.dev1"]), (0, "2*", [])])
def test_all_but_the_newest_go_by_pep_440(keep, pattern, gone):
    """1.1.dev10 is newer than 1.1.dev3, and older than 1.1."""
    assert over(rows(*reversed(NIGHTLY)), keep, pattern) == gone


@catches("indexctl/room.py", "if row.yanked is None:", "if True:")
def test_a_yanked_release_takes_nobody_s_place():
    """Else the releases that people get would go before the one that nobody gets."""
    assert over(rows("3.0", "2.0", "1.0", yanked=["3.0", "2.0"]), 1) == []
    assert over(rows("4.0", "3.0", "2.0", "1.0", yanked=["4.0", "2.0"]), 1) == ["2.0", "1.0"]


@catches("indexctl/room.py", "version = order(row.release)[:-1]", "version = order(row.release)")
def test_spellings_of_one_version_count_once():
    assert over(rows("2.0", "1.00", "1.0", "v1.0.0", "0.9"), 2) == ["0.9"]
    assert over(rows("2.0", "1.00", "1.0"), 1) == ["1.00", "1.0"]


@catches("indexctl/room.py", "if is_release(it.release) and fn", "if fn")
def test_what_is_no_version_stays():
    assert over(rows("1.0", "2004d", "nightly", "0.9"), 1) == ["0.9"]
    assert over(rows("2004d", "nightly"), 0) == []


@pytest.mark.parametrize("release, day", [
    ("1.0.dev20261130", (2026, 11, 30)), ("1.0.dev202611302359", (2026, 11, 30)), ("1.0.post20240229", (2024, 2, 29)),
    ("1.0.DEV2026113023", (2026, 11, 30)), ("2.0a20261130", (2026, 11, 30)), ("1.0.dev20261130235959", (2026, 11, 30)),
    ("1!1.0rc1.dev20261130+abc", (2026, 11, 30)), ("1.0.post20261001.dev3", (2026, 10, 1))])
def test_a_dev_post_or_pre_number_may_be_a_day(release, day):
    assert day_of(release) == datetime.date(*day)


@catches("indexctl/room.py", "if found.year >= FIRST_YEAR:", "if found:")
@pytest.mark.parametrize("release", [
    "1.0", "1.0.dev1", "1.0.dev20261131", "1.0.dev20250229", "1.0.dev2026113", "1.0.dev202611301", "1.0.dev19991231",
    "20261130", "2026.11.30", "1.0+20261130", "1.0.dev0+g20261130", "1.0.dev2026113024", "1.0.dev99999999",
    "1.0.dev20261130236160", "nightly-20261130", "1.0.dev\u0662\u0660\u0662\u0666\u0661\u0661\u0663\u0660"])
def test_what_is_no_day_is_none(release):
    assert day_of(release) is None


@catches("indexctl/room.py", "(today - day).days > days]", "(today - day).days >= days]")
def test_only_what_is_older_by_its_version_goes():
    found = rows("1.0.dev20261031", "1.0.dev20261030", "1.0.dev7", "1.0.dev20271231")
    assert [it.release for it in older_than(found, 30, TODAY)] == ["1.0.dev20261030"]
    assert [it.release for it in older_than(found, 29, TODAY)] == ["1.0.dev20261031", "1.0.dev20261030"]


def files(*releases):
    made = [FileRow(f"frob-{it}{end}", it, 1_024, "", None, "00") for it in releases for end in ENDS]
    return sorted(made, key=lambda it: order(it.release), reverse=True)


def gone(run):
    return [(row["do"], row["file"]) for row in run.desk.asked]


def test_the_releases_are_shown_before_they_go(run, capsys):
    run.contents = {"frob": files(*NIGHTLY)}
    assert run("release", "delete", "frob", "--keep", "2", "--matching", "*.dev*") == 0
    assert gone(run) == [("delete", f"frob-1.1.dev{at}{end}") for at in (2, 1) for end in ENDS]
    assert run.confirmed == ["2 releases with 4 files, 4.0 KiB, will be deleted."]
    out = capsys.readouterr()
    shown = ", ".join(f"frob-1.1.dev2{end}" for end in ENDS)
    assert out.err.startswith(f"frob 1.1.dev2: {shown}, 2.0 KiB\nfrob 1.1.dev1: ")
    assert out.out.splitlines()[0] == "index-uncache frob frob-1.1.dev2-py3-none-any.whl"
    assert run.fresh == ["frob"], "a page that nginx keeps may have what is gone"


def test_releases_may_be_named(run):
    run.contents = {"frob": files("1.0", "1.1"), "spam": [FileRow("spam-2.tar.gz", "2", 1, "", None, "00")]}
    run("release", "delete", "frob", "1.0", "1.0")
    run("release", "delete", "spam==2", "frob==1.1")
    assert [it for _, it in gone(run)] == [*(f"frob-1.0{it}" for it in ENDS), "spam-2.tar.gz",
                                           *(f"frob-1.1{it}" for it in ENDS)]


@catches("indexctl/commands/releases.py", "if (name, release.lower()) not in rows:", "if False:")
@pytest.mark.parametrize("words, said", [
    (("frob", "9.9", "1.0"), "frob has no release 9.9. Nothing was done."),
    (("frob", "1.1.dev4"), "Did you mean `1.1.dev3` or `1.1.dev2` or `1.1.dev1`? Nothing was done."),
    (("forb", "1.0"), "Nobody holds forb."), (("forb", "--keep", "1"), "Nobody holds forb.")])
def test_a_slip_deletes_nothing(run, words, said):
    run.contents = {"frob": files(*NIGHTLY)}
    with pytest.raises(Stop) as end:
        run("release", "delete", *words)
    assert end.value.status == REFUSED and str(end.value).endswith(said) and not run.desk.asked


@pytest.mark.parametrize("words, said", [
    (("frob", "1.0", "--keep", "3"), "Name releases, or say"), (("frob==1.0", "--keep", "3"), "Name releases"),
    (("frob", "--keep", "-1"), "from 0 on"), (("frob", "--keep", "1", "--older-than", "-1"), "from 0 on"),
    (("frob", "1.0", "--matching", "*"), "go with --keep"), (("frob", "--older-than", "3"), "go with --keep"),
    (("-x", "--keep", "3"), "")])
def test_options_that_do_not_fit_are_told_before_the_index_is_asked(run, words, said):
    run.put("find_contents", lambda *_: pytest.fail("asked"))
    with pytest.raises((Stop, SystemExit)) as end:
        run("release", "delete", *words)
    assert said in str(end.value) and getattr(end.value, "status", WRONG) == WRONG


def test_what_has_no_date_stays_and_is_named(run, capsys, monkeypatch):
    run.contents = {"frob": files("1.0.dev20260101", "1.0.dev20250101", "1.0.dev5", "1.0.dev99991231")}
    run("release", "delete", "frob", "--keep", "1", "--older-than", "30", "--yes")
    assert [it for _, it in gone(run)] == [f"frob-1.0.dev{at}{end}" for at in (20260101, 20250101) for end in ENDS]
    assert capsys.readouterr().err.startswith("These stay, since their versions have no date: 1.0.dev5.\n")


def test_nothing_to_delete_is_told(run, capsys):
    run.contents = {"frob": files("1.0")}
    assert run("release", "delete", "frob", "--keep", "1") == 0
    assert capsys.readouterr().err == "There is nothing to delete.\n" and not run.confirmed


@catches("indexctl/commands/releases.py", '"Some of the files are there still. Run it again."', '""')
def test_a_deletion_that_is_interrupted_says_to_run_it_again(run, capsys):
    run.contents = {"frob": files("1.0", "1.1")}

    def interrupted(file):
        raise KeyboardInterrupt
    run.desk.delete = interrupted
    with pytest.raises(KeyboardInterrupt):
        run("release", "delete", "frob", "--keep", "1", "--yes")
    assert capsys.readouterr().err == "Some of the files are there still. Run it again.\n"


def test_a_refusal_leaves_the_others_to_go(run):
    run.contents, run.desk.refuses = {"frob": files("1.0")}, ("delete",)
    assert run("release", "delete", "frob", "1.0") == REFUSED and len(run.desk.asked) == 2
