"""Lines of JSON, as a script reads them: each change of the office and of an owner, what it printed, and its status."""
from __future__ import annotations

import json

import pytest
from support.indexctl.control import DAY, Control, digest, filled, line, upload_line, user_lines
from support.indexctl.scripted import always, as_json, scripted
from support.packages import make_wheel, wheel_files, wheel_name
from support.planted import catches
from support.serving import Index, sha256

pytestmark = pytest.mark.xdist_group("json")
FILE = wheel_name("spam", "1.0")


def lines():
    yield from user_lines("ann", "bob", "eve")
    for name in ("frob", "ham", "egg"):
        yield line(1, "ann", "claim", name=name)
    for file in ("frob-1.0.tar.gz", "frob-1.1.tar.gz", "ham-1.0.tar.gz", "egg-1.0.tar.gz"):
        yield upload_line(2, "ann", file, 5)
    yield line(3 * DAY, "bob", "open_case", name="ham", kind="reuse", contact="a", work="b", why="c")


@pytest.fixture
def by(program, folder):
    with Index(program, path=filled(program, f"{folder}/index.db", lines())) as index:
        yield Control(folder, f"http://127.0.0.1:{index.port}")


def rows(ended):
    """The lines of standard output, each a row."""
    text = ended.stdout[:len(ended.stdout) - len(ended.stderr)]
    return [json.loads(it) for it in text.splitlines()]


def asked(by, *words, caller="office", status=0):
    ended = by.run(*words, "--json", caller=caller)
    assert ended.returncode == status, ended.stdout
    return rows(ended)


ACCEPTED, ALREADY = {"status": 200, "answer": "accepted"}, {"status": 200, "answer": "already"}
CHANGES = {
    "name claim new": ("ann", [{"do": "claim", "name": "new", **ACCEPTED}]),
    "name claim frob": ("ann", [{"do": "claim", "name": "frob", **ALREADY}]),
    "owner add bob frob ham": ("ann", [{"do": "add_owner", "name": it, "user": "bob", **ACCEPTED}
                                       for it in ("frob", "ham")]),
    "quota set frob ham 2GiB": ("office", [{"do": "set_quota", "name": it, "quota": 2 << 30, **ACCEPTED}
                                           for it in ("frob", "ham")]),
    "release yank frob==1.0 ham==1.0 --reason bad": ("ann", [
        {"do": "yank", "name": it, "release": "1.0", "reason": "bad", **ACCEPTED} for it in ("frob", "ham")]),
    "case close ham": ("office", [{"do": "close_case", "name": "ham", **ACCEPTED}]),
    "release delete frob --keep 1 --yes": ("ann", [
        {"do": "delete", "file": "frob-1.0.tar.gz", **ACCEPTED},
        {"do": "uncache", "name": "frob", "file": "frob-1.0.tar.gz", "run": "index-uncache frob frob-1.0.tar.gz"}]),
    "file ban egg-1.0.tar.gz --yes": ("office", [
        {"do": "ban_file", "file": "egg-1.0.tar.gz", **ACCEPTED},
        {"do": "uncache", "name": "egg", "file": "egg-1.0.tar.gz", "run": "index-uncache egg egg-1.0.tar.gz"},
        {"do": "look", "file": "egg-1.0.tar.gz", "status": 404, "served": False}])}


@catches("indexctl/terminal.py", "say(sentence, printed=json.dumps(row))", "say(sentence)",
         also=["indexctl/test_unit_json.py::test_a_row_is_printed_in_place_of_the_text_and_a_sum_to_standard_error"])
@pytest.mark.parametrize("words", CHANGES)
def test_each_change_is_a_row_with_its_answer(by, words):
    caller, wanted = CHANGES[words]
    assert asked(by, *words.split(), caller=caller) == wanted


@catches("indexctl/changes.py", 'self.say(sentence, {**told, "hint": advice})',
         'self.say(sentence, {**told, "hint": advice, **shown})')
@catches("indexctl/commands/users.py", 'by_row: Row = {"token": token} if token else {}', "by_row: Row = {}",
         also=["test_a_reply_that_is_lost_leaves_the_token_in_a_row"])
def test_users_come_with_their_tokens_and_a_refused_one_without(by):
    found = asked(by, "user", "add", "dave", "ann", "fay", status=1)
    assert [(it["do"], it["user"], it["answer"], "token" in it) for it in found] == [
        ("add_user", "dave", "accepted", True), ("add_user", "ann", "UserExists", False),
        ("add_user", "fay", "accepted", True)]
    assert "`indexctl user rotate ann`" in found[1]["hint"] and found[1]["status"] == 409
    for it in (found[0], found[2]):
        assert digest(it["token"]) == it["token_sha256"]
        assert by.rows("token", "check", caller=it["token"])[0]["caller"] == "user"


@catches("indexctl/changes.py", 'self.say(sentence, {**told, "hint": advice})', "pass",
         also=["test_users_come_with_their_tokens_and_a_refused_one_without",
               "test_an_answer_with_hostile_text_is_one_line"])
def test_a_refusal_is_a_row_before_the_run_ends(by):
    found = asked(by, "name", "claim", "x", "y", caller="nobody", status=1)
    assert [(it["name"], it["status"], it["answer"]) for it in found] == [("x", 401, "BadToken")]
    assert "No user has this token" in found[0]["hint"]


@catches("indexctl/terminal.py", "note(sentence)", "say(sentence)", also=["test_a_record_is_replayed_by_rows"])
@catches("indexctl/commands/work.py", "say_row(args.json, text, {", "say_row(False, text, {")
def test_an_upload_is_a_row_for_each_file(by, folder):
    path = f"{folder}/{FILE}"
    make_wheel(path, wheel_files("spam", "1.0", ""))
    with open(path, "rb") as made:
        whole = sha256(made.read())
    one = {"do": "upload", "file": FILE, "sha256": whole, "requires_python": ""}
    assert asked(by, "upload", path, "--dry-run") == [{**one, "name": "spam", "size": asked_size(path)}]
    assert asked(by, "upload", path, caller="ann", status=1)[0]["answer"] == "NoProject"
    found = asked(by, "upload", "--claim", path, caller="ann")
    assert found == [{"do": "claim", "name": "spam", **ACCEPTED}, {**one, "status": 201, "answer": "accepted"}]
    assert asked(by, "upload", path, caller="ann") == [{**one, **ALREADY}]


def asked_size(path):
    with open(path, "rb") as made:
        return len(made.read())


@catches("indexctl/commands/work.py", '{"do": "page", "path": path, "names": len(found.owners), "cases": len(cases)})',
         "None)")
def test_pages_and_tokens_are_rows_too(by, folder):
    assert asked(by, "page", folder) == [{"do": "page", "path": f"{folder}/index.html", "names": 3, "cases": 1}]
    ended = by.run("token", "digest", "--json", given="abc\n")
    assert rows(ended) == [{"digest": digest("abc")}]
    made, = asked(by, "token", "new")
    assert digest(made["token"]) == made["digest"]


@catches("indexctl/commands/work.py", 'desk.say("", {**line.row, "line": line.number, "answer": "left", "hint": why})',
         "pass")
def test_a_record_is_replayed_by_rows(by, folder):
    record = f"{folder}/record"
    for words in (("name", "allow", "x"), ("name", "claim", "mine")):
        assert by.run(*words, INDEX_RECORD=record).returncode in (0, 1)
    with open(record, "a", encoding="utf-8") as kept:
        kept.write(json.dumps({"at": "2026-11-30T00:00:00Z", "do": "upload", "file": "a-1.tar.gz"}) + "\n")
    found = asked(by, "replay", record, "--since", "1970-01-01T00:00:00Z", "--dry-run")
    assert found[0]["do"] == "claim" and found[0]["line"] == 1
    assert (found[1]["line"], found[1]["answer"]) == (2, "left") and "its bytes are needed" in found[1]["hint"]
    assert asked(by, "replay", record, "--since", "1970-01-01T00:00:00Z")[0]["answer"] == "already"


@catches("indexctl/commands/users.py", "and token and not desk.is_json:", "and token:",
         also=["indexctl/test_unit_json.py::test_a_token_is_in_the_row_of_its_user_alone"])
def test_what_is_said_to_a_person_is_on_standard_error(by):
    ended = by.run("user", "rotate", "eve", "--json")
    assert "such as a pipeline of eve" in ended.stderr and len(rows(ended)) == 1


def test_a_reply_that_is_lost_leaves_the_token_in_a_row(folder):
    with scripted(always(502, "text/html", b"<html>")) as server:
        ended = Control(folder, server.url).run("user", "add", "dave", "--json", "--again", "0")
    found, = rows(ended)
    assert ended.returncode == 3 and (found["answer"], digest(found["token"])) == ("unknown", found["token_sha256"])


def test_an_answer_with_hostile_text_is_one_line(folder):
    said = as_json({"answer": "refused", "name": "Not\u202eOwner\nx"})
    with scripted(always(403, *said[1:])) as server:
        ended = Control(folder, server.url).run("name", "claim", "x", "--json", "--again", "0")
    assert [it["answer"] for it in rows(ended)] == ["Not\u202eOwner\nx"] and "\u202e" not in ended.stdout
