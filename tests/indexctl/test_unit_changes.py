"""What goes out for a change, what is kept of it, and what is said."""
from __future__ import annotations

import json

import pytest
from indexctl import changes
from indexctl.changes import Desk
from indexctl.ends import REFUSED, UNREACHED, WRONG, Stop
from indexctl.names import sha256
from indexctl.transport import Request, replace
from support.indexctl.rows import SETTING, FakeIndex, args, reply
from support.planted import catches


def answer(status=200, answer="accepted", **more):
    found = reply(status, json.dumps({"answer": answer, **more}).encode())
    return found


def desk_of(monkeypatch, *replies, **setting):
    monkeypatch.setattr(changes, "find_setting", lambda _: replace(SETTING, **setting))
    desk = Desk(args())
    desk.index = FakeIndex(*replies, setting=desk.setting)
    return desk


@pytest.fixture
def desk(monkeypatch):
    return lambda *replies, **setting: desk_of(monkeypatch, *replies, **setting)


def test_a_request_goes_out_with_the_token(desk):
    one = desk(answer())
    assert one.change("x", {"do": "claim", "name": "A_b"})
    sent = one.index.asked[0]
    assert (sent.method, sent.path, sent.is_once) == ("POST", "/requests", False)
    assert dict(sent.headers) == {"X-Index-Token": "office"}
    body = b"".join(sent.pieces())
    assert (json.loads(body), sent.length) == ({"do": "claim", "name": "A_b"}, len(body))


@pytest.mark.parametrize("name", ["\u4e2d", "\ud800", "a\r\nb"])
def test_any_text_for_a_name_goes_out(desk, name):
    """A line of a record may have it: the index refuses it, and the replay goes on."""
    one = desk(answer())
    one.change("x", {"do": "claim", "name": name})
    assert json.loads(b"".join(one.index.asked[0].pieces())) == {"do": "claim", "name": name}


def test_a_request_can_go_out_by_another_token(desk, tmp_path):
    one = desk(answer(), record=str(tmp_path / "r"))
    one.change("x", {"do": "remove_owner", "name": "a", "user": "bob"}, "other", {"for": "bob"})
    assert dict(one.index.asked[0].headers)["X-Index-Token"] == "other"
    row = json.loads((tmp_path / "r").read_text())
    assert (row["caller"], row["for"]) == (sha256("other")[:8], "bob")


@pytest.mark.parametrize("do, is_once", [(it, True) for it in changes.NEVER_ALREADY] + [("claim", False),
                                                                                     ("add_owner", False)])
def test_what_is_never_already_is_sent_once(desk, do, is_once):
    one = desk(answer())
    one.change("x", {"do": do, "name": "a"})
    assert one.index.asked[0].is_once == is_once


def test_without_a_token_nothing_is_asked_for(desk):
    one = desk(token="")
    with pytest.raises(Stop, match="There is no token in the environment") as end:
        one.change("x", {"do": "claim", "name": "a"})
    assert end.value.status == WRONG and one.index.asked == []


@pytest.mark.parametrize("found, is_kept", [
    (answer(), True), (answer(201), True), (answer(answer="already"), False),
    (replace(answer(answer="already"), is_repeat=True), True), (answer(409, "refused", name="NameHeld"), False),
    (replace(answer(409, "refused", name="NameHeld"), is_repeat=True), False),
    (answer(400, "message", name="BadBody"), False), (answer(507, "fault", name="Store"), False)])
def test_what_was_accepted_is_kept(desk, tmp_path, found, is_kept):
    one = desk(found, record=str(tmp_path / "r"))
    one.post("x", {"do": "claim", "name": "a"})
    rows = [json.loads(it) for it in (tmp_path / "r").read_text().splitlines()]
    assert len(rows) == is_kept
    if is_kept:
        row = rows[0]
        assert list(row) == ["at", "caller", "index", "do", "name"]
        assert (row["caller"], row["index"]) == (sha256("office")[:8], SETTING.url)


def test_what_can_t_be_accepted_takes_no_room(desk, tmp_path):
    one = desk(answer(), record=str(tmp_path / "none" / "r"))
    assert one.post("x", {"do": "allow", "name": "-"}, is_kept=False) == (200, "accepted")


@pytest.mark.parametrize("found, told", [
    (answer(201), (201, "accepted")), (answer(answer="already"), (200, "already")),
    (answer(409, "refused", name="NameHeld"), (409, "NameHeld")), (answer(400, "message", name="x"), (400, "x")),
    (answer(507, "fault", name="Store"), (507, "Store"))])
def test_an_answer_is_its_status_and_its_name(desk, found, told):
    assert desk(found).post("x", {"do": "claim", "name": "a"}) == told


@pytest.mark.parametrize("found", [answer(202), answer(409, "refused", name=3), answer(200, "refused"),
                                   reply(200, b"x"), answer(409, "other", name="x"), answer(409, "accepted")])
def test_what_is_no_answer_is_told(desk, found):
    with pytest.raises(Stop, match="no answer of an index") as end:
        desk(found).post("x", {"do": "claim", "name": "a"})
    assert end.value.status == UNREACHED


@pytest.mark.parametrize("do", changes.NEVER_ALREADY)
def test_what_can_t_be_accepted_may_be_sent_again(desk, do):
    one = desk(answer(409, "refused", name="TooEarly"))
    one.post("x", {"do": do, "name": "a"}, is_kept=False)
    assert not one.index.asked[0].is_once


@catches("indexctl/changes.py", 'if is_kept and reply.is_repeat and found.get("name") in ("BadToken", "NotOwner"):',
         "if not answer:",
         also=["indexctl/test_replies.py::test_who_takes_another_token_has_it_though_the_reply_was_lost"])
@pytest.mark.parametrize("is_repeat", [True, False])
@pytest.mark.parametrize("status, name", [(401, "BadToken"), (403, "NotOwner")])
def test_a_right_that_a_first_try_may_have_ended_is_told_as_that(desk, tmp_path, status, name, is_repeat):
    """Of who took another token, or left the owners, and had no reply: it is no refusal, and not to be recorded."""
    one = desk(replace(answer(status, "refused", name=name), is_repeat=is_repeat), record=str(tmp_path / "r"))
    row = {"do": "remove_owner", "name": "a", "user": "ann"}
    if is_repeat:
        with pytest.raises(Stop, match=f"^x: the first try had no reply, and may have been done.*{name}") as end:
            one.post("x", row)
        assert end.value.status == UNREACHED
    else:
        assert one.post("x", row) == (status, name)
    assert (tmp_path / "r").read_text() == ""


def test_ctrl_c_in_a_change_says_that_it_may_have_been_done(desk, tmp_path, capsys, monkeypatch):
    one = desk(record=str(tmp_path / "r"))

    def interrupt(*_):
        raise KeyboardInterrupt
    monkeypatch.setattr(one.index, "ask", interrupt)
    with pytest.raises(KeyboardInterrupt):
        one.change("claim a", {"do": "claim", "name": "a"})
    assert "claim a: this may have been done, and is in no record" in capsys.readouterr().err
    assert (tmp_path / "r").read_text() == ""


def test_what_became_of_a_change_is_said(desk, capsys):
    one = desk(answer(), answer(answer="already"), answer(404, "refused", name="NameProhibited"))
    assert [one.change("claim a", {"do": "claim", "name": "a"}) for _ in range(3)] == [True, True, False]
    out = capsys.readouterr()
    assert out.out == "claim a: accepted\nclaim a: already, nothing changed\n"
    assert out.err.startswith("claim a: 404 NameProhibited. The office has prohibited this name.")
    assert (one.refused, one.status()) == (1, REFUSED)


def test_nothing_refused_is_a_success(desk):
    assert desk().status() == 0


def test_a_token_that_nobody_has_ends_the_run(desk):
    with pytest.raises(Stop, match="401 BadToken. No user has this token") as end:
        desk(answer(401, "refused", name="BadToken")).change("x", {"do": "claim", "name": "a"})
    assert end.value.status == REFUSED


def test_a_file_is_deleted_by_its_path(desk):
    one = desk(answer())
    assert one.delete("A_b-1.0+x.tar.gz")
    sent = one.index.asked[0]
    assert (sent.method, sent.path) == ("DELETE", "/files/a-b/A_b-1.0%2Bx.tar.gz")
    assert (sent.pieces, sent.length) == (None, 0)


def test_a_look_at_the_token_is_told_as_what_it_is_at_any_try(desk):
    """It changes nothing, so a first try without a reply has not done so either."""
    assert desk(replace(answer(401, "refused", name="BadToken"), is_repeat=True)).caller() == "nobody"


@pytest.mark.parametrize("found, is_own", [(answer(answer="already"), True), *(
    (answer(409, "refused", name=it), False) for it in ("TokenTaken", "NoUser", "NotOffice"))])
def test_whose_token_it_is_is_asked_by_what_can_t_change_anything(desk, tmp_path, found, is_own):
    one = desk(found, record=str(tmp_path / "r"))
    assert one.is_own("bob") == is_own and not (tmp_path / "r").exists()
    asked = json.loads(b"".join(one.index.asked[0].pieces()))
    assert asked == {"do": "set_token", "user": "bob", "token_sha256": sha256("office")}


@pytest.mark.parametrize("name, is_user", [("UserExists", True), ("TokenTaken", False)])
def test_whether_there_is_a_user_is_asked_by_what_can_t_be_accepted(desk, tmp_path, name, is_user):
    one = desk(answer(409, "refused", name=name), record=str(tmp_path / "none" / "r"))
    assert one.is_user("bob") == is_user
    assert json.loads(next(iter(one.index.asked[0].pieces()))) == {
        "do": "add_user", "user": "bob", "office": False, "token_sha256": sha256("office")}


def test_who_may_not_ask_for_users_is_told(desk):
    with pytest.raises(Stop, match="Nothing was done.") as end:
        desk(answer(403, "refused", name="NotOffice")).is_user("bob")
    assert end.value.status == REFUSED


@pytest.mark.parametrize("name, caller", [("BadName", "office"), ("NotOffice", "user"), ("BadToken", "nobody")])
def test_a_caller_is_of_the_office_or_a_user_or_nobody(desk, tmp_path, name, caller):
    one = desk(answer(400, "refused", name=name), record=str(tmp_path / "none" / "r"))
    assert one.caller() == caller
    assert json.loads(next(iter(one.index.asked[0].pieces()))) == {"do": "allow", "name": "-"}


def test_headers_of_a_request_stay(desk):
    one = desk(answer(201))
    one.send("x", {"do": "upload", "file": "a-1.tar.gz"}, Request("PUT", "/x", (("X-Index-SHA256", "d"),)))
    assert dict(one.index.asked[0].headers) == {"X-Index-SHA256": "d", "X-Index-Token": "office"}
