"""Upload times and the feed of changes, out of nginx's log of changes, which has texts of anybody in it."""
from __future__ import annotations

import gzip
import json
import os
import re
import xml.etree.ElementTree

import pytest
from indexctl.site import feed, log
from indexctl.site.log import Change, Log
from support.planted import catches

AT, NEXT = "2026-11-30T06:00:00+00:00", "2026-11-30T07:00:00+01:00"
SECONDS = 1_796_018_400
WHEEL = "frob-1.0-py3-none-any.whl"
HOSTILE = "<b>&\"'\u202e\x07\ufffe\ud800"


def line(method="PUT", path=f"/files/frob/{WHEEL}", status=201, at=AT, body="", **more):
    """A line of the log, as packages.conf has it written."""
    return json.dumps({"at": at, "id": "x", "from": "127.0.0.1", "user": "", "caller": "3ffbc8c8", "status": status,
                       "reached": True, "took": 0.1, "method": method, "path": path, "file": "", "body": body, **more})


def request(status=200, at=AT, **asked):
    return line("POST", "/requests", status, at, json.dumps(asked))


@catches("indexctl/site/log.py", 'reason[:MOST_REASON] if isinstance(reason, str) else ""', '""')
@pytest.mark.parametrize("text, change", [
    (line(), Change(SECONDS, "upload", "frob", WHEEL)), (line(at=NEXT), Change(SECONDS, "upload", "frob", WHEEL)),
    (line(path="/files/frob/Fr.ob-1.0%2B5.tar.gz"), Change(SECONDS, "upload", "fr-ob", "Fr.ob-1.0+5.tar.gz")),
    (line("DELETE", status=200), Change(SECONDS, "delete", "frob", WHEEL)),
    (line("POST", "/legacy/", 200, file=WHEEL), Change(SECONDS, "upload", "frob", WHEEL)),
    (request(do="claim", name="Fr.ob"), Change(SECONDS, "claim", "fr-ob")),
    (request(do="yank", name="frob", release="1.0RC1", reason="bad"), Change(SECONDS, "yank", "frob", "1.0rc1", "bad")),
    (request(do="unyank", name="frob", release="1.0"), Change(SECONDS, "unyank", "frob", "1.0"))])
def test_a_line_says_what_everybody_sees(text, change):
    assert log.change_of(text) == change


@catches("indexctl/site/log.py", 'ASKED = {"claim": "", ', 'ASKED = {"claim": "", "record_attempt": "", ')
@catches("indexctl/site/log.py", 'path == "/requests" and status == 200', 'path == "/requests"')
@pytest.mark.parametrize("text", [
    line(status=200), line(status=409), line("DELETE", status=404), line("GET", status=200), line(path="/files/frob/x"),
    line(path="/names/frob"), line("POST", "/legacy/", 200), line("POST", "/legacy/", 400, file=WHEEL),
    request(409, do="claim", name="frob"), request(do="add_user", user="ann", office=True, token_sha256="0" * 64),
    request(do="set_token", user="ann", token_sha256="0" * 64), request(do="record_attempt", name="frob"),
    request(do="claim"), request(do="claim", name="../x"), request(do="claim", name=["frob"]), request(do=["claim"]),
    request(do="yank", name="frob"), request(do="yank", name="frob", release="<b>"),
    request(do="yank", name="frob", release=1),
    line(at="yesterday"), line(at="9999-12-31T00:00:00+00:00"), line(at="1969-01-01T00:00:00+00:00"), "", "[]", "\x00",
    line("POST", "/requests", 200, body="no JSON"), line(body="", path=None)])
def test_a_line_that_is_refused_or_of_no_kind_for_everybody_says_nothing(text):
    assert log.change_of(text) is None


@catches("indexctl/site/log.py", "reason[:MOST_REASON]", "reason")
def test_a_long_reason_is_cut():
    assert len(log.change_of(request(do="yank", name="frob", release="1.0", reason="x" * 5_000)).reason) == 300


def put(path, *lines):
    path.write_text("".join(f"{it}\n" for it in lines))
    return str(path)


def claims(count):
    """A line for each of so many seconds."""
    return [request(at=f"2026-11-30T06:{at // 60:02}:{at % 60:02}+00:00", do="claim", name=f"n{at}")
            for at in range(count)]


@catches("indexctl/site/log.py", "without_repeats(sorted(found)))[-MOST_CHANGES:]",
         "without_repeats(sorted(found)))[:MOST_CHANGES]")
def test_the_last_hundred_changes_are_kept_the_oldest_first(tmp_path):
    found = log.read_logs(Log(), [put(tmp_path / "log", *claims(250))], ())
    assert [it.name for it in found.last] == [f"n{at}" for at in range(150, 250)]
    assert found.until == SECONDS + 249


@catches("indexctl/site/log.py", "if len(found) > 50 * MOST_CHANGES:", "if len(found) < 0:")
def test_of_very_many_changes_no_more_are_held_at_once(tmp_path, monkeypatch):
    monkeypatch.setattr(log, "MOST_CHANGES", 2)
    held = []
    monkeypatch.setattr(log, "sorted", lambda found: held.append(len(found)) or sorted(found), raising=False)
    assert [it.name for it in log.read_logs(Log(), [put(tmp_path / "log", *claims(900))], ()).last] == ["n898", "n899"]
    assert max(held) == 101


@catches("indexctl/site/log.py", "for path in rotated(log):", "for path in [log]:",
         also=["test_a_file_of_a_log_that_was_read_is_passed_over"])
def test_logs_that_were_rotated_and_of_several_machines_are_read(tmp_path):
    with gzip.open(tmp_path / "log.2.gz", "wt") as made:
        made.write(request(at="2026-11-30T06:00:01+00:00", do="claim", name="a") + "\n")
    put(tmp_path / "log.1", request(at="2026-11-30T06:00:02+00:00", do="claim", name="b"))
    logs = [put(tmp_path / "log", request(at="2026-11-30T06:00:04+00:00", do="claim", name="d")),
            put(tmp_path / "other", request(at="2026-11-30T06:00:03+00:00", do="claim", name="c"))]
    assert [it.name for it in log.read_logs(Log(), logs, ()).last] == ["a", "b", "c", "d"]


@catches("indexctl/site/log.py", "set(kept.last)", "set()")
def test_what_was_kept_is_there_after_the_log_is_gone(tmp_path):
    yank = request(at="2026-11-30T06:00:01+00:00", do="yank", name="frob", release="1.0", reason="x")
    path = put(tmp_path / "log", line(), yank)
    first = log.read_logs(Log(), [path], {WHEEL})
    assert first.uploaded == {WHEEL: SECONDS} and len(first.last) == 2
    log.keep(str(tmp_path), first)
    put(tmp_path / "log", request(at="2026-11-30T06:00:02+00:00", do="unyank", name="frob", release="1.0"))
    second = log.read_logs(log.read_kept(str(tmp_path)), [path], {WHEEL})
    assert [it.do for it in second.last] == ["upload", "yank", "unyank"] and second.uploaded == {WHEEL: SECONDS}
    assert log.read_logs(second, [path], ()).uploaded == {}


@catches("indexctl/site/log.py", "min(it.at, uploaded", "max(it.at, uploaded")
def test_the_first_upload_of_a_file_counts(tmp_path):
    """A file that was deleted may come again, and twine sends what is there."""
    path = put(tmp_path / "log", line(at="2026-11-30T06:00:05+00:00"), line(at="2026-11-30T06:00:09+00:00"))
    assert log.read_logs(Log(), [path], {WHEEL}).uploaded == {WHEEL: SECONDS + 5}
    assert log.read_logs(Log(uploaded={WHEEL: 7}), [path], {WHEEL}).uploaded == {WHEEL: 7}


@catches("indexctl/site/log.py", ">= since - SLACK", ">= 0")
def test_a_file_of_a_log_that_was_read_is_passed_over(tmp_path):
    path = put(tmp_path / "log", line())
    old = put(tmp_path / "log.1", request(do="claim", name="old"))
    os.utime(old, (SECONDS - 86_401, SECONDS - 86_401))
    assert [it.name for it in log.read_logs(Log(until=SECONDS), [path], ()).last] == ["frob"]
    os.utime(old, (SECONDS - 86_399, SECONDS - 86_399))
    assert len(log.read_logs(Log(until=SECONDS), [path], ()).last) == 2


@catches("indexctl/site/log.py", "if before.get(key) != it.do:", "if it.do:")
def test_a_repeat_is_no_change(tmp_path):
    def yank(at, do="yank"):
        return request(at=f"2026-11-30T06:00:{at:02}+00:00", do=do, name="frob", release="1.0", reason=f"{at}")
    path = put(tmp_path / "log", yank(1), yank(2), yank(3, "unyank"), yank(4, "unyank"), yank(5), line(), line())
    assert [(it.at - SECONDS, it.do) for it in log.read_logs(Log(), [path], ()).last] == [
        (0, "upload"), (1, "yank"), (3, "unyank"), (5, "yank")]


@catches("indexctl/site/log.py", "except OSError as end:", "except ZeroDivisionError as end:")
def test_a_log_that_is_not_there_or_can_t_be_read_is_told(tmp_path, capsys, monkeypatch):
    assert log.read_logs(Log(), [f"{tmp_path}/none"], ()) == Log()
    assert "There is no" in capsys.readouterr().err
    monkeypatch.setattr(log, "lines_of", lambda _: (_ for _ in ()).throw(PermissionError(13, "Permission denied")))
    assert log.read_logs(Log(), [put(tmp_path / "log", line())], ()) == Log()
    assert "log can't be read: Permission denied" in capsys.readouterr().err


@catches("indexctl/site/log.py", " if is_whole else Log()", "")
@pytest.mark.parametrize("text", ["", "{", "[]", '{"last": [], "uploaded": {}}',
                                  '{"last": [], "uploaded": [], "until": 0}',
                                  '{"last": [], "uploaded": {"a": "b"}, "until": 0}',
                                  '{"last": [[1, "claim", "frob", ""]], "uploaded": {}, "until": 0}',
                                  '{"last": [[1, "claim", "../x", "", ""]], "uploaded": {}, "until": 0}',
                                  '{"last": [[1, "add_user", "frob", "", ""]], "uploaded": {}, "until": 0}'])
def test_what_was_kept_and_is_not_of_its_kind_is_left_out(tmp_path, text):
    (tmp_path / ".changes.json").write_text(text)
    assert log.read_kept(str(tmp_path)) == Log()


@catches("indexctl/site/log.py", ', errors="replace", opener=open_itself)', ', errors="replace")')
def test_what_was_kept_is_not_read_by_a_link(tmp_path):
    (tmp_path / "mine").write_text("{}")
    (tmp_path / ".changes.json").symlink_to(tmp_path / "mine")
    with pytest.raises(OSError, match="symbolic links"):
        log.read_kept(str(tmp_path))


CHANGES = [Change(SECONDS, "claim", "frob"), Change(SECONDS + 1, "upload", "frob", WHEEL),
           Change(SECONDS + 2, "yank", "frob", "1.0", HOSTILE),
           Change(SECONDS + 3, "delete", "gone", "gone-1.0.tar.gz")]
ATOM = "{http://www.w3.org/2005/Atom}"


def made(changes=CHANGES, url="https://h:8443"):
    return "".join(feed.feed_of(url, Log(list(changes)), {"frob"}))


@catches("indexctl/site/feed.py", "<author><name>{host}</name></author>", "")
def test_a_feed_has_what_rfc_4287_asks_for():
    """Section 4.1: one id, title and updated in each, an author of the whole, and a link of each entry without a
    content."""
    root = xml.etree.ElementTree.fromstring(made().encode())
    assert root.tag == f"{ATOM}feed" and len(root.findall(f"{ATOM}author/{ATOM}name")) == 1
    entries = root.findall(f"{ATOM}entry")
    assert len(entries) == len(CHANGES)
    for it in (root, *entries):
        assert [len(it.findall(ATOM + key)) for key in ("id", "title", "updated")] == [1, 1, 1]
        assert re.fullmatch(r"\d{4}-\d\d-\d\dT\d\d:\d\d:\d\dZ", it.findtext(f"{ATOM}updated"))
    assert {it.get("rel"): it.get("href") for it in root.findall(f"{ATOM}link")} == {
        "self": "https://h:8443/browse/feed.xml", None: "https://h:8443/browse/"}
    ids = [it.findtext(f"{ATOM}id") for it in entries]
    assert len(set(ids)) == len(ids) and all(re.fullmatch("urn:uuid:[0-9a-f-]{36}", it) for it in ids)
    assert root.findtext(f"{ATOM}updated") == "2026-11-30T06:00:03Z"


@catches("indexctl/site/feed.py", "in reversed(log.last):", "in log.last:",
         also=["indexctl/test_site_said.py::test_pages_and_a_feed_say_what_the_log_of_changes_says"])
@catches("indexctl/site/feed.py", 'if is_held else ""', 'if it else ""')
def test_the_newest_change_comes_first_and_leads_to_its_project():
    entries = xml.etree.ElementTree.fromstring(made().encode()).findall(f"{ATOM}entry")
    assert [it.findtext(f"{ATOM}title") for it in entries] == [
        "gone gone-1.0.tar.gz was deleted", "frob 1.0 was yanked", f"frob {WHEEL} was uploaded", "frob was claimed"]
    page = "https://h:8443/browse/projects/frob.html"
    assert [it.find(f"{ATOM}link").get("href") for it in entries] == ["https://h:8443/browse/", page, page, page]


@catches("indexctl/site/feed.py", "reason = text_of(it.reason)", "reason = it.reason")
def test_a_reason_in_a_feed_is_a_text():
    root = xml.etree.ElementTree.fromstring(made().encode())
    assert root.findall(f"{ATOM}entry")[1].findtext(f"{ATOM}summary") == "<b>&\"'\\u202e\\u0007\\ufffe\\ud800"


@catches("indexctl/site/feed.py", "key = uuid.uuid5(", "key = uuid.uuid4() or uuid.uuid5(")
def test_the_same_log_gives_the_same_feed_and_an_entry_keeps_its_id():
    assert made() == made()
    first, second = (re.findall("urn:uuid:[0-9a-f-]+", made(it)) for it in (CHANGES[:2], CHANGES))
    assert second[-2:] == first and "<updated>1970-01-01T00:00:00Z</updated>" in made([])
