"""The lines of a record and of nginx's log, as a replay reads them."""
from __future__ import annotations

import gzip
import json

import pytest
from indexctl import replays
from indexctl.ends import WRONG, Stop
from support.planted import catches

URL, ME = "https://packages.example", "01234567"


def test_a_line_of_the_record_says_who_asked_which_index_for_what():
    text = json.dumps({"at": "1970-01-01T00:00:10Z", "caller": ME, "index": URL, "do": "claim", "name": "frob"})
    assert replays.read_line(7, text) == replays.Line(7, 10, ME, URL, {"do": "claim", "name": "frob"})


def test_a_line_of_an_older_record_may_say_neither():
    assert replays.read_line(1, '{"at": "1970-01-01T00:00:10Z", "do": "x"}') == replays.Line(1, 10, "", None,
                                                                                          {"do": "x"})


@pytest.mark.parametrize("status, is_one", [(200, True), (201, True), (199, False), (202, False), (400, False)])
def test_a_line_of_nginx_counts_if_it_was_accepted(status, is_one):
    text = json.dumps({"at": "1970-01-01T00:00:10+00:00", "status": status, "method": "PUT",
                       "path": "/files/frob/frob-1.0%2Bx.tar.gz"})
    wanted = replays.Line(3, 10, None, None, {"do": "upload", "file": "frob-1.0+x.tar.gz"})
    assert replays.read_line(3, text) == (wanted if is_one else None)


@pytest.mark.parametrize("status, more, unanswered", [
    (500, {}, 500), (502, {"reached": True}, 502), (504, {"reached": True}, 504), (502, {"reached": False}, None),
    (499, {"reached": True}, None)])
def test_a_change_without_an_answer_is_shown_and_not_repeated(status, more, unanswered):
    found = replays.read_line(1, logged(method="POST", path="/requests", body='{"do":"prohibit","name":"frob"}',
                                        **{"status": status, **more}))
    assert (found and found.unanswered) == unanswered
    if found:
        assert found.row == {"do": "prohibit", "name": "frob"}
        assert replays.why_left(found, URL, ME, True).startswith(f"nginx answered it by {status}, and the index may")


def logged(**row):
    return json.dumps({"at": "1970-01-01T00:00:10+00:00", "status": 200, **row})


def test_a_deletion_in_nginx_s_log_names_its_file():
    found = replays.read_line(1, logged(method="DELETE", path="/files/a/a-1.tar.gz"))
    assert found.row == {"do": "delete", "file": "a-1.tar.gz"}


@pytest.mark.parametrize("more", [{}, {"file": ""}])
@pytest.mark.parametrize("path", ["/legacy/", "/legacy"])
def test_an_upload_by_twine_in_an_older_log_has_no_file(path, more):
    found = replays.read_line(1, logged(method="POST", path=path, body="", **more))
    assert found.row == {"do": "upload", "file": ""}
    assert replays.why_left(found, URL, ME, True).startswith("it is an upload by twine or its like")


@catches("indexctl/replays.py", 'return {"do": "upload", "file": str(found.get("file", ""))}',
         'return {"do": "upload", "file": ""}',
         also=["indexctl/test_history.py::test_the_log_alone_says_who_did_what_and_who_uploaded_by_twine"])
def test_an_upload_by_twine_is_shown_with_its_file():
    found = replays.read_line(1, logged(method="POST", path="/legacy/", body="", file="frob-1.0.tar.gz", caller=ME))
    assert found.row == {"do": "upload", "file": "frob-1.0.tar.gz"}
    assert replays.why_left(found, URL, ME, True) == (
        "its bytes are needed: let an owner upload the same file again")


@catches("indexctl/replays.py", 'found.get("path", REQUESTS) != REQUESTS:',
         'found.get("path", REQUESTS).startswith("/legacy"):')
@pytest.mark.parametrize("path", ["//legacy/", "/legacy%2F", "/x/../legacy/"])
def test_an_upload_by_twine_is_known_by_any_address_that_nginx_takes_for_it(path):
    """An address with a slash too much, say: the line of one owner would end the replay of all."""
    assert replays.read_line(1, logged(method="POST", path=path, body="")).row == {"do": "upload", "file": ""}


@catches("indexctl/replays.py", "if not unanswered:", "if True:")
@pytest.mark.parametrize("body", ["", "x", "[]", "[" * 9_999, '{"do":7}', '{"do":"ban_file","file":7}', '{"name":"a"}'],
                         ids=lambda it: it[:20])
def test_a_body_of_anybody_that_the_index_did_not_answer_ends_no_replay(body):
    found = replays.read_line(1, logged(method="POST", path="/requests", body=body, status=502, reached=True))
    assert (found.row, found.unanswered) == ({"do": ""}, 502)
    assert replays.why_left(found, URL, ME, True).startswith("nginx answered it by 502, and the index may")


def test_a_line_of_a_replay_says_when_it_was_asked_for_first():
    text = json.dumps({"at": "1970-01-01T00:00:20Z", "again": "1970-01-01T00:00:10Z", "do": "x"})
    found = replays.read_line(1, text)
    assert (found.at, found.began, found.row) == (20, 10, {"do": "x"}) and replays.Line(1, 10, ME, URL, {}).began == 10


def test_a_request_in_nginx_s_log_is_its_body():
    found = replays.read_line(1, logged(method="POST", path="/requests", body='{"do": "allow", "name": "x"}'))
    assert (found.row, found.caller, found.index) == ({"do": "allow", "name": "x"}, None, None)


@pytest.mark.parametrize("text", [
    "", "x", "[]", "3", '{"at": 3, "do": "x"}', '{"do": "x"}', '{"at": "1970-01-01T00:00:10Z"}',
    '{"at": "1970-01-01T00:00:10Z", "do": 1}', '{"at": "1970-01-01T00:00:10Z", "do": "delete"}',
    '{"at": "1970-01-01T00:00:10Z", "do": "ban_file", "file": 3}', '{"at": "1970-01-01T00:00:10Z", "do": "upload"}',
    logged(method="POST", path="/requests", body="no JSON"), logged(method="POST")])
def test_a_line_that_can_t_be_read_is_told(text):
    with pytest.raises(Stop, match="^Line 4 .*Use a copy without it.$") as end:
        replays.read_line(4, text)
    assert end.value.status == WRONG


def test_a_moment_that_is_none_is_told():
    for text in ('{"at": "yesterday", "do": "x"}', '{"at": "2026-01-01", "again": "yesterday", "do": "x"}'):
        with pytest.raises(Stop, match="^Line 7: 'yesterday' is not a moment"):
            replays.read_line(7, text)


def test_lines_keep_their_numbers_past_empty_ones_and_refused_ones(tmp_path):
    record = tmp_path / "record"
    row = '{"at": "1970-01-01T00:00:10Z", "do": "x"}'
    record.write_text(f"{row}\n\n   \n{json.dumps({'at': '1970-01-01T00:00:10Z', 'status': 409})}\n{row}\n")
    assert [it.number for it in replays.read_lines(str(record))] == [1, 5]


@catches("indexctl/replays.py", "with text_of(path) as kept:",
         'with open(path, encoding="utf-8", errors="replace") as kept:')
def test_a_log_that_logrotate_compressed_is_read(tmp_path):
    packed = gzip.compress(f"{logged(method='PUT', path='/files/a/a-1.tar.gz')}\n".encode())
    (tmp_path / "log.gz").write_bytes(packed)
    assert [it.row["file"] for it in replays.read_lines(str(tmp_path / "log.gz"))] == ["a-1.tar.gz"]
    (tmp_path / "log.gz").write_bytes(packed[:-9])
    with pytest.raises(Stop, match="log.gz can't be read: Compressed file ended") as end:
        replays.read_lines(str(tmp_path / "log.gz"))
    assert end.value.status == WRONG


def test_bytes_that_are_no_text_end_no_replay(tmp_path):
    (tmp_path / "record").write_bytes(b'{"at": "1970-01-01T00:00:10Z", "do": "x", "reason": "\xff"}\n')
    assert replays.read_lines(str(tmp_path / "record"))[0].row["reason"] == "\ufffd"


@catches("indexctl/replays.py", "    except (OSError, EOFError, zlib.error) as end:",
         "    except (FileNotFoundError, EOFError, zlib.error) as end:")
@pytest.mark.parametrize("name, why", [("none", "No such file"), ("", "Is a directory")])
def test_a_record_that_can_t_be_read_is_told(tmp_path, name, why):
    with pytest.raises(Stop, match=f"{name} can't be read: {why}") as end:
        replays.read_lines(str(tmp_path / name))
    assert end.value.status == WRONG
