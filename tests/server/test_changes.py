"""nginx's log of changes: each change is a line of JSON, with what was asked and never with a token."""
import base64
import json
import os
import re
import time

import pytest
from support.running import run_command
from support.server.expected import assert_reply
from support.server.front import Front, kept
from support.server.gone import ask_and_go
from support.server.waits import wait_for
from support.serving import accepted, sha256

SECRET, OTHERS = "9f2d7c0b5e8a4163", "nobody's"
IDENTIFIER = re.compile("[0-9a-f]{32}")
MOMENT = re.compile(r"\d{4}-\d\d-\d\dT\d\d:\d\d:\d\d[+-]\d\d:\d\d")
FILE = "/files/logged/logged-1.0.tar.gz"


def logged(front: Front, number: int) -> list:
    """The lines of the log, once there are so many: nginx writes a line after its reply."""
    wait_for(lambda: len(front.changes()) >= number)
    return front.changes()


@pytest.fixture
def refused(front):
    """The status of the last of five changes, with a read among them. Each waits for the line of the one before: nginx
    has two workers, and each writes its own lines."""
    headers = {"X_Index_Token": SECRET, "X_Index_SHA256": sha256(b"new")}
    for number, ask in enumerate((
            lambda: front.request(do="add_user", user="zoe", office=False, token_sha256=sha256(SECRET.encode())),
            lambda: front.claim("Logged", SECRET), lambda: front.ask("PUT", FILE, b"new", **headers),
            lambda: front.ask("DELETE", f"{FILE}?why=old", **headers)), 1):
        accepted(ask())
        assert front.ask("GET", "/simple/")[0] == 200
        logged(front, number)
    return front.claim('Quo"ted', OTHERS)[0]


@pytest.fixture
def lines(refused, front):
    return logged(front, 5)


def test_each_change_is_a_line_and_a_read_is_none(lines, refused):
    assert [(it["method"], it["path"], it["status"]) for it in lines] == [
        ("POST", "/requests", 200), ("POST", "/requests", 200), ("PUT", FILE, 201), ("DELETE", FILE, 200),
        ("POST", "/requests", refused)]


def test_a_line_has_what_was_asked(lines):
    bodies = [it["body"] and json.loads(it["body"]) for it in lines]
    assert bodies[1:] == [{"do": "claim", "name": "Logged"}, "", "", {"do": "claim", "name": 'Quo"ted'}]


def test_a_line_tells_when_and_from_where(lines):
    assert [it["from"] for it in lines if MOMENT.fullmatch(it["at"])] == ["127.0.0.1"] * 5


KEYS = ["at", "id", "from", "user", "caller", "status", "reached", "took", "method", "path", "file", "body"]


def test_a_line_has_all_its_keys(lines):
    assert [list(it) for it in lines] == [KEYS] * 5


def test_a_line_says_whether_an_index_got_the_request_and_how_long_it_took(front, kept_index):
    """As seen by its client, whose body takes a second to come."""
    begun = time.monotonic()
    body = b'{"do":"claim","name":"slowly"}'
    halves = (part for part, seconds in ((body[:9], 1), (body[9:], 0)) if not time.sleep(seconds))
    assert front.ask("POST", "/requests", halves, X_Index_Token="office", Content_Length=str(len(body)))[0] == 200
    seen = time.monotonic() - begun
    logged(front, 1)
    assert front.ask("POST", "/requests", iter([body]), X_Index_Token="office")[0] == 411
    lines = logged(front, 2)
    assert [(it["status"], it["reached"]) for it in lines] == [(200, True), (411, False)]
    assert 0.5 < lines[0]["took"] <= seen + 0.1 and 0 <= lines[1]["took"] < 60, lines


@pytest.mark.parametrize("method, path, status", [
    ("POST", "/requests", 401), ("PUT", FILE, 401), ("DELETE", FILE, 401), ("POST", "/simple/", 405),
    ("PUT", "/nowhere", 404)])
@pytest.mark.told("a user names a failed request by its `X-Request-Id`")
def test_a_line_has_the_id_that_the_reply_names(front, method, path, status):
    body = b'{"do":"claim","name":"frob"}' if method == "POST" else b"x"
    replied, headers, _ = front.ask(method, path, body, X_Index_Token=OTHERS, X_Index_SHA256=sha256(body))
    assert replied == status and IDENTIFIER.fullmatch(headers["X-Request-Id"]), headers.items()
    assert [it["id"] for it in logged(front, 1)] == [headers["X-Request-Id"]]


@pytest.mark.parametrize("path", ["/", "/simple/", "/simple/none/", FILE, "/names/x", "/health", "/indexctl",
                                  "/favicon.ico", "/legacy/", "/nowhere"])
def test_each_reply_names_the_id_of_its_request(front, path):
    replies = [front.ask("GET", path) for _ in range(2)]
    seen = [headers.get_all("X-Request-Id") for _, headers, _ in replies]
    assert all(len(it) == 1 and IDENTIFIER.fullmatch(it[0]) for it in seen) and seen[0] != seen[1], seen


def test_no_line_has_a_token(lines, front):
    with open(f"{front.folder}/index-changes.log") as log:
        text = log.read()
    assert text and SECRET not in text and OTHERS not in text, text


@pytest.mark.parametrize("name, is_logged", [("frob", False), ('"token":', True), ("token", True)])
def test_a_token_in_a_body_is_not_in_the_log(front, name, is_logged):
    """A line for `index apply` has one, and is no request: one who sends it by mistake has shown a token to nobody."""
    body = json.dumps({"do": "claim", "name": name, **({} if is_logged else {"at": 1, "token": SECRET})})
    assert front.ask("POST", "/requests", body, X_Index_Token="office")[0] == (200 if name == "token" else 400)
    assert logged(front, 1)[-1]["body"] == (body if is_logged else "")


@pytest.mark.parametrize("between", ['"token":', '"token" :', '"token"\t: ', '"token"\r\n:\r\n'])
def test_a_token_in_a_body_is_not_in_the_log_however_it_is_laid_out(front, between):
    """JSON may have blanks and ends of lines before a colon."""
    front.ask("POST", "/requests", f'{{"do":"claim","name":"frob",{between}"{SECRET}"}}', X_Index_Token="office")
    assert logged(front, 1)[-1]["body"] == ""


def test_a_long_body_is_in_the_log(front):
    body = json.dumps({"do": "claim", "name": "x" * 60_000})
    front.ask("POST", "/requests", body, X_Index_Token="office")
    last = logged(front, 1)[-1]
    assert last["body"] == body, (last["status"], len(last["body"]))


@pytest.mark.parametrize("pieces", [[b'{"do":"claim",', b'"name":"chunked"}'],
                                    [bytes([it]) for it in b'{"do":"claim","name":"chunked"}' + b" " * 12_000]],
                         ids=["few", "many"])
def test_a_body_in_chunks_that_could_be_left_out_of_the_log_is_refused(front, pieces):
    """nginx puts chunks that take more than its memory of a body into a file, and a file is not logged."""
    sent = front.ask("POST", "/requests", iter(pieces), X_Index_Token="office")
    assert_reply(sent, 411, "application/json", b'"NoLength"')
    assert b'"free"' in front.ask("GET", "/names/chunked")[2]
    assert logged(front, 1)[-1]["status"] == 411


def test_a_search_by_pip_is_no_change(front):
    """A replay, and who reads the log, would take it for an upload by twine."""
    front.ask("POST", "/", "<methodCall/>", Content_Type="text/xml")
    front.ask("POST", "/requests", "x", X_Index_Token="office")
    assert logged(front, 1)[-1]["path"] == "/requests"
    assert "/" not in {it["path"] for it in front.changes()}


class TestReader:
    """A line names who read a password, and nobody whose name no password was asked for."""

    def user_of(self, front: Front, method: str, path: str, password: str) -> str:
        before = len(front.changes()) if os.path.exists(f"{front.folder}/index-changes.log") else 0
        secret = base64.b64encode(f"ann:{password}".encode()).decode()
        front.ask(method, path, b"x", Authorization=f"Basic {secret}")
        return logged(front, before + 1)[-1]["user"]

    def test_no_name_is_believed_where_no_password_is_asked_for(self, front):
        assert self.user_of(front, "POST", "/requests", "right") == ""

    @pytest.fixture
    def locked(self, kept_index, certificate, folder):
        """nginx as password.conf and legacy.conf have it, for a reader `ann`."""
        front = Front(f"{folder}/locked", certificate, kept_index.port)
        front.put("index/server.d/legacy.conf", kept("legacy.conf"))
        front.put("index/server.d/password.conf", kept("password.conf"),
                  **{"/etc/nginx/index/readers.htpasswd": f"{folder}/readers"})
        hashed = run_command(["openssl", "passwd", "-apr1", "right"]).stdout
        with open(f"{folder}/readers", "w", encoding="ascii") as made:
            made.write(f"ann:{hashed}")
        with front:
            yield front

    @pytest.mark.parametrize("path, password, user", [
        ("/requests", "right", "ann"), ("/files/frob/frob-1.tar.gz", "right", "ann"), ("/requests", "wrong", ""),
        ("/legacy/", "right", "")])
    def test_a_name_is_that_of_a_right_password(self, locked, path, password, user):
        assert self.user_of(locked, "PUT" if "files" in path else "POST", path, password) == user


def test_a_change_whose_client_is_gone_is_logged_as_the_index_answered_it(front, kept_index):
    ask_and_go(front, kept_index, "POST", "/requests", b'{"do":"claim","name":"gone"}')
    assert [it["status"] for it in front.changes()] == [200]
    assert b'"held"' in front.ask("GET", "/names/gone")[2]
