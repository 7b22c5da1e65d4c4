"""What is chosen of a source, what is left, and what four threads do at once."""
from __future__ import annotations

import threading

import pytest
from indexctl.ends import WRONG, Stop
from indexctl.moving import items, web
from indexctl.moving.imports import read_owners, some
from indexctl.moving.items import Found, Item, Left, add_items, read_wanted, reason_of, settle, tell_missing, why_not
from indexctl.moving.pool import AT_ONCE, at_once
from indexctl.moving.web import Failure
from support.planted import catches
from support.unit import raises

WHEEL, OTHER, SOURCE = "frob-1.0-py3-none-any.whl", "frob-2.0-py3-none-any.whl", "frob-1.0.tar.gz"


def found_of(*its, wanted=()):
    found = Found()
    add_items(found, its, read_wanted(wanted))
    settle(found)
    return found


@pytest.mark.parametrize("words, wanted", [
    ([], {}), (["Frob"], {"frob": set()}), (["frob==1.0RC1", "Frob==2"], {"frob": {"1.0rc1", "2"}}),
    (["frob==1.0", "frob"], {"frob": set()})])
def test_names_may_have_a_version(words, wanted):
    assert read_wanted(words) == wanted


@pytest.mark.parametrize("word", ["-", "frob==", "frob==1-0", "frob>=1", "frob==1.0==2", "../x"])
def test_a_word_that_names_nothing_is_told(word):
    with pytest.raises(Stop) as end:
        read_wanted([word])
    assert end.value.status == WRONG


@pytest.mark.parametrize("file, why", [
    (WHEEL, ""), (SOURCE, ""), ("frob-1.0.zip", ".whl and .tar.gz alone"), ("frob-1.0-py3.8.egg", ".whl and .tar.gz"),
    ("../frob-1.0.tar.gz", "no such file name"), ("frob.whl", "no such file name"), ("x/y-1.0.tar.gz", "no such file")])
def test_a_name_says_whether_the_index_can_take_it(file, why):
    assert why in why_not(Item(file, "x")) and bool(why) == bool(why_not(Item(file, "x")))


@pytest.mark.parametrize("size, is_taken", [(0, True), (16 << 20, True), ((16 << 20) + 1, False)])
def test_a_size_that_a_page_says_is_enough_to_leave_a_file(size, is_taken):
    assert (why_not(Item(WHEEL, "x", size=size)) == "") == is_taken


def test_files_go_to_their_projects_and_wheels_first():
    found = found_of(*(Item(it, "x") for it in (SOURCE, OTHER, WHEEL, "Spam_Nest-1.tar.gz", "frob-1.0.zip")))
    assert {name: [it.file for it in project.items] for name, project in found.projects.items()} == {
        "frob": [WHEEL, OTHER, SOURCE], "spam-nest": ["Spam_Nest-1.tar.gz"]}
    assert found.left == [Left("x", "the index takes .whl and .tar.gz alone")]


@pytest.mark.parametrize("wanted, files, left", [
    (["frob"], [WHEEL, OTHER], ["frob-1.0.zip"]), (["frob==1.0"], [WHEEL], []), (["spam"], [], []),
    (["frob==1.0", "spam"], [WHEEL], [])])
def test_what_is_not_wanted_is_passed_over(wanted, files, left):
    found = found_of(*(Item(it, it) for it in (WHEEL, OTHER, "frob-1.0.zip", "other.egg")), wanted=wanted)
    assert [it.file for project in found.projects.values() for it in project.items] == files
    assert [it.place for it in found.left] == left


def test_what_was_wanted_and_is_not_there_is_told():
    wanted = read_wanted(["frob==1.0", "frob==9", "spam"])
    found = Found()
    add_items(found, [Item(WHEEL, "x")], wanted)
    tell_missing(found, wanted)
    assert [it.place for it in found.left] == ["frob==9", "spam"]


@pytest.mark.parametrize("yanks, wanted, left", [
    ((None, None), {}, 0), (("old", "other"), {"1.0": "old"}, 0), (("", "x"), {"1.0": ""}, 0), (("old", None), {}, 1)])
def test_a_release_is_yanked_if_all_its_files_are(yanks, wanted, left):
    found = found_of(Item(WHEEL, "a", yanked=yanks[0]), Item(SOURCE, "b", yanked=yanks[1]), Item(OTHER, "c"))
    assert found.projects["frob"].yanks == wanted and len(found.left) == left


@pytest.mark.parametrize("text, reason", [
    ("old", "old"), ("two\nlines\tand \x9b\ufffe", "two lines and   "), ("x" * 513, "x" * 512),
    ("\u2192" * 200, "\u2192" * 170), ("\ud800", "?")])
def test_a_reason_becomes_one_that_the_index_takes(text, reason):
    assert reason_of(text) == reason and len(reason.encode()) <= 512


def test_other_hosts_are_counted():
    found = found_of(Item(WHEEL, "https://a.example/x"), Item(SOURCE, "https://b.example/x"), Item(OTHER, "/folder/x"))
    assert items.other_hosts(found, "a.example") == {"": 1, "b.example": 1}


def test_a_file_has_the_owners_of_names(tmp_path):
    (tmp_path / "o.csv").write_text("\ufeffname,user\r\nFrob,ann\n\nfrob, bob \n\"spam\",ann\n", encoding="utf-8")
    assert read_owners(str(tmp_path / "o.csv")) == {"frob": ["ann", "bob"], "spam": ["ann"]}
    for text in (b"frob\n", b"frob,ann,x\n", b"frob,Ann\n", b"-,ann\n", b"\xff,ann\n"):
        (tmp_path / "o.csv").write_bytes(text)
        with pytest.raises(Stop) as end:
            read_owners(str(tmp_path / "o.csv"))
        assert end.value.status == WRONG
    assert some(["a"] * 10) == ", ".join("a" * 10) and some(["a"] * 11).endswith("a, .. (11 names)")


@catches("indexctl/moving/web.py", 'if parts.scheme in ("http", "https") and parts.hostname',
         "if parts.scheme and parts.hostname")
@pytest.mark.parametrize("url", [
    "file:///etc/passwd", "ftp://a/x", "data:,x", "javascript:x", "//a/x", "x", "http:///x", "http://[::1/x",
    "http://a:99999/", "http://a/\nx", "gopher://a"])
def test_only_http_is_asked(url):
    with pytest.raises(Failure, match="no address of http or https"):
        web.parts_of(url)


@pytest.mark.parametrize("text, least, most", [("", 0, 0), ("7", 7, 7), ("x", 0, 0), ("-1", 0, 0), ("1.5", 0, 0),
                                               ("Wed, 21 Oct 2015 07:28:00 GMT", 0, 0),
                                               ("Fri, 31 Dec 2100 23:59:59 GMT", 1e9, 1e10)])
def test_retry_after_is_seconds_or_a_date(text, least, most):
    """The first date is the example of RFC 9110, 10.2.3's reference."""
    assert least <= web.seconds_of(text) <= most


def test_four_work_at_once_and_each_item_is_done():
    barrier, stopped = threading.Barrier(AT_ONCE), threading.Event()

    def work(item):
        barrier.wait(20)
        return item * 2
    assert AT_ONCE == 4 and sorted(at_once(work, range(8), stopped)) == list(range(0, 16, 2))
    assert not stopped.is_set()


def test_a_failure_stops_the_others_after_what_is_under_way():
    stopped, done, begun = threading.Event(), [], threading.Event()

    def work(item):
        if item == 1:
            begun.wait(20)
            raise Stop(WRONG, "x")
        begun.set()
        stopped.wait(20)
        done.append(item)
        return item
    with pytest.raises(Stop):
        list(at_once(work, range(99), stopped))
    assert 0 in done and len(done) < 9


@pytest.mark.parametrize("end, said", [
    (Stop(WRONG, "x"), ""),
    (KeyboardInterrupt(), "Stopping after what is under way. Press Ctrl-C again to end at once.\n")])
def test_who_presses_ctrl_c_is_told_how_to_end_at_once_and_nobody_else(capsys, end, said):
    with pytest.raises(type(end)):
        list(at_once(raises(end), range(3), threading.Event()))
    assert capsys.readouterr().err == said


def test_one_who_wants_no_more_is_no_failure():
    stopped = threading.Event()
    for _ in at_once(lambda it: it, range(99), stopped):
        break
    assert stopped.is_set()
