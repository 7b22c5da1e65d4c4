"""Functions of index-legacy-upload at their boundaries, without the program."""
import base64
import hashlib
import http.client
import mmap
import socket
import threading
import types

import pytest
from support.clients.forms import BOUNDARY, END, field, form
from support.planted import catches
from support.programs import program_of
from support.unit import raises, with_time

LEGACY = program_of("index-legacy-upload")
WHEEL, DATA = "frob-1.0-py3-none-any.whl", b"data"
MOST = 16_777_216


def basic(pair):
    return "Basic " + base64.b64encode(pair.encode()).decode()


@catches("server/bin/index-legacy-upload", "token = token.strip()", "pass")
@pytest.mark.parametrize("header, token", [
    (basic("__token__:abc"), "abc"), (basic("u:a:b"), "a:b"), (basic(":x"), "x"), (basic("u:a b"), "a b"),
    (" basic   " + basic("u:x").split()[1] + " ", "x"), (basic("u:!~"), "!~"), (basic("u: x"), "x"),
    (basic("u:x \t"), "x"), (basic("u:x\n"), "x"), (basic("u:\r\n a b \r\n"), "a b")])
def test_a_token_is_all_behind_the_first_colon(header, token):
    assert LEGACY.token_of(header) == token


@pytest.mark.parametrize("header", ["", "Basic", basic("no colon"), "Bearer " + basic("u:x").split()[1], basic("u:"),
                                    basic("u: "), basic("u:\n"), basic("u:x\ny"), basic("u:é"), "Basic dTp4!",
                                    basic("u:a\r\nX: y")])
def test_no_token_is_refused_by_401(header):
    with pytest.raises(LEGACY.Refused) as refused:
        LEGACY.token_of(header)
    assert refused.value.status == 401 and "no token came" in refused.value.sentence


@pytest.mark.parametrize("body, owners", [
    (b'{"owners":["ann","bob"],"state":"held"}', {"owners": "ann, bob"}), (b'{"state":"free"}', {}), (b"[]", {}),
    (b'{"owners":[]}', {}), (b'{"owners":["ann\\r\\nX: y"]}', {}), (b'{"owners":[1]}', {}), (b'{"owners":"ann"}', {}),
    (b"<html>", {}), (b"", {})])
def test_the_owners_of_a_project_are_those_that_the_index_says(body, owners):
    with socket.create_server(("127.0.0.1", 0)) as index:
        def answer():
            peer, _ = index.accept()
            with peer:
                assert peer.recv(1 << 16).startswith(b"GET /names/frob HTTP/1.1\r\n")
                peer.sendall(b"HTTP/1.1 200 OK\r\nContent-Length: %d\r\n\r\n%s" % (len(body), body))
        threading.Thread(target=answer, daemon=True).start()
        assert LEGACY.owners_of(f"127.0.0.1:{index.getsockname()[1]}", "frob") == owners


def test_of_an_index_that_is_silent_no_owner_is_told_and_it_is_not_waited_for(monkeypatch):
    monkeypatch.setattr(LEGACY, "LOOK_SECONDS", 0.05)
    with socket.create_server(("127.0.0.1", 0)) as index:
        assert LEGACY.owners_of(f"127.0.0.1:{index.getsockname()[1]}", "frob") == {}
    assert LEGACY.owners_of("127.0.0.1:9", "frob") == {}


def mapped(data):
    made = mmap.mmap(-1, len(data))
    made.write(data)
    return made


def fields(data):
    return LEGACY.fields_of(mapped(data), BOUNDARY.encode())


def refusal(data, call=fields):
    with pytest.raises(LEGACY.Refused) as refused:
        call(data)
    return refused.value.status, refused.value.sentence


def test_the_fields_that_count_are_read_and_others_passed_over():
    found = fields(field("name", b"frob") + field("classifiers", b"a") + field("classifiers", b"b")
                   + field("content", b"x\r\n--y", WHEEL) + END)
    assert {name: (it.file, bytes(it.data)) for name, it in found.items()} == {
        "name": (None, b"frob"), "content": (WHEEL, b"x\r\n--y")}


@pytest.mark.parametrize("tail", [END, END[:-2]])
def test_a_form_ends_with_or_without_a_line_break(tail):
    assert list(fields(field("name", b"frob") + tail)) == ["name"]


def test_a_form_of_no_fields_has_none():
    assert fields(END) == {}


@pytest.mark.parametrize("data, said", [
    (b"x" + END, "does not begin with its boundary"), (END[:-4], "malformed or breaks off"),
    (field("name", b"frob"), "malformed or breaks off"), (field("name", b"frob") + END[:-3], "malformed or breaks off"),
    (field("name", b"frob") + END + b"x", "malformed or breaks off"),
    (f"--{BOUNDARY}\r\nX: y\r\n\r\nz\r\n".encode() + END, "a field has no name"),
    (f"--{BOUNDARY}\r\nContent-Disposition: file; name=\"x\"\r\n\r\nz\r\n".encode() + END, "a field has no name"),
    (field("name", b"frob").replace(b"\r\n", b"  ", 1) + END, "malformed or breaks off"),
    # the boundary stands where the value would
    (field("name", b"").removesuffix(b"\r\n") + END, "malformed or breaks off"),
    (field("docs", b"x", "a.html") + END, "a file in the field 'docs'"),
    (field("name", b"a") + field("name", b"b") + END, "'name' stands twice")])
def test_a_form_that_is_malformed_is_refused(data, said):
    status, sentence = refusal(data)
    assert status == 400 and said in sentence


def test_a_form_has_4096_fields_at_most():
    assert list(fields(field("x", b"") * 4096 + END)) == []
    assert refusal(field("x", b"") * 4097 + END) == (400, "the form has more than 4096 fields")


@catches("server/lib/package_index/forms.py", 'or head.count(b";") > MOST_SEMICOLONS:', "or False:")
@pytest.mark.parametrize("count, is_read", [(16, True), (17, False)])
def test_the_head_of_a_field_has_16_semicolons_at_most(count, is_read):
    """Python reads it in a time that grows by their square: 4,096 heads took half a minute, without a known token."""
    long = field("name", b"x").replace(b"form-data", b"form-data" + b"; a=b" * (count - 1), 1)
    if is_read:
        assert list(fields(long + END)) == ["name"]
    else:
        assert refusal(long + END) == (400, "the form is malformed or breaks off")


def test_the_head_of_a_field_has_2048_bytes_at_most():
    head = len(field("name", b"x", None).partition(b"\r\n\r\n")[0]) - len(BOUNDARY) - 2
    pad = b"; a=" + b"b" * (2048 - 4 - 4 - head)
    long = field("name", b"x").replace(b"form-data", b"form-data" + pad, 1)
    assert list(fields(long + END)) == ["name"]
    assert refusal(long.replace(b"; a=", b"; a=b") + END)[0] == 400


@pytest.mark.parametrize("data, text", [(b"", ""), (b" >=3.7,\n <4 ", ">=3.7, <4"), (b"x" * 4096, "x" * 4096)])
def test_a_value_is_one_line(data, text):
    assert LEGACY.text_of({"x": LEGACY.Field(None, data)}, "x") == text and LEGACY.text_of({}, "x") == ""


@pytest.mark.parametrize("data", [b"x" * 4097, b"\xff", "é".encode(), b"a\x00b", b"\x7f"])
def test_a_value_that_the_index_can_not_keep_is_refused(data):
    status, sentence = refusal(data, lambda it: LEGACY.text_of({"x": LEGACY.Field(None, it)}, "x"))
    assert status == 400 and "the field 'x' is too long" in sentence


@pytest.mark.parametrize("file, project", [(WHEEL, "frob"), ("Frob._Nest-1.0-py3-none-any.whl", "frob-nest"),
                                           ("a-b-1.tar.gz", "a-b")])
def test_a_file_name_decides_the_project(file, project):
    assert LEGACY.project_of(file) == project


@pytest.mark.parametrize("file, said", [
    ("frob-1.0.zip", "the index takes .whl and .tar.gz alone"), ("frob.whl", "BadFileName: "),
    ("../frob-1.0.tar.gz", "BadFileName: "), ("frob-1.0.tar.gz.whl", "BadFileName: ")])
def test_a_file_that_the_index_takes_not_is_refused(file, said):
    status, sentence = refusal(file, LEGACY.project_of)
    assert status == 400 and said in sentence


def upload(**changed):
    data = form(changed.pop("file", WHEEL), changed.pop("data", DATA), **changed)
    return LEGACY.Upload(fields(data))


@catches("server/bin/index-legacy-upload", "if not is_requires_python(self.requires):", "if not self.file:",
         also=["clients/test_uploads_by_forms.py::test_a_form_is_refused_and_the_index_is_not_asked"])
@pytest.mark.parametrize("requires", ["3.8", "3.8 or later", ">=3.8 <4", ">=", "any"])
def test_a_requires_python_that_clients_can_t_read_is_refused(requires):
    """Poetry and PDM would take no release of the project because of it."""
    with pytest.raises(LEGACY.Refused, match="Requires-Python is .*build it again") as refused:
        upload(requires_python=requires)
    assert refused.value.status == 400


def test_an_upload_is_what_the_form_says():
    made = upload(requires_python=">=3.8", sha256_digest="AB" * 32)
    assert (made.file, bytes(made.data), made.project) == (WHEEL, DATA, "frob")
    assert made.headers("abc") == {"X-Index-Token": "abc", "X-Index-SHA256": "ab" * 32, "Content-Length": "4",
                                   "X-Requires-Python": ">=3.8"}
    made = upload(sha256_digest=None, name=None)
    assert made.headers("abc") == {"X-Index-Token": "abc", "X-Index-SHA256": hashlib.sha256(DATA).hexdigest(),
                                   "Content-Length": "4"}
    assert upload(name="FROB", protocol_version="1").project == upload(protocol_version=None).project == "frob"


@pytest.mark.parametrize("changed, said", [
    ({"action": "submit"}, "uploads of files alone"), ({"action": None}, "uploads of files alone"),
    ({"protocol_version": "2"}, "uploads of files alone"), ({"attestations": "[]"}, "can't keep attestations"),
    ({"name": "spam"}, "the file name says project 'frob', its metadata 'spam'")])
def test_an_upload_of_which_something_would_be_lost_is_refused(changed, said):
    status, sentence = refusal(changed, lambda it: upload(**it))
    assert status == 400 and said in sentence


def test_a_signature_and_a_form_without_a_file_are_refused():
    assert "can't keep signatures" in refusal(field("gpg_signature", b"s", "x.asc") + form(WHEEL, DATA),
                                              lambda it: LEGACY.Upload(fields(it)))[1]
    for content in (b"", field("content", b"x"), field("content", b"x", "")):
        data = field(":action", b"file_upload") + content + END
        assert "has no file" in refusal(data, lambda it: LEGACY.Upload(fields(it)))[1]


def test_a_file_has_16_mib_at_most():
    made = {":action": LEGACY.Field(None, b"file_upload"), "content": LEGACY.Field(WHEEL, memoryview(bytes(MOST)))}
    assert LEGACY.Upload(made).project == "frob"
    made["content"] = LEGACY.Field(WHEEL, memoryview(bytes(MOST + 1)))
    status, sentence = refusal(made, LEGACY.Upload)
    assert status == 413 and "16,777,216 bytes" in sentence


class Reply:
    """A connection to an index that replies so, and what it was asked."""

    def __init__(self, status, body):
        self.status, self.body, self.asked, self.sock, self.is_closed = status, body, [], None, False

    def __call__(self, address, timeout):
        self.given = address, timeout
        return self

    def connect(self):
        self.sock = types.SimpleNamespace(shutdown=lambda _: None)

    def request(self, *words):
        self.asked.append(words)

    def getresponse(self):
        return types.SimpleNamespace(status=self.status, read=lambda most: self.body[:most])

    def close(self):
        self.is_closed = True


@pytest.mark.parametrize("status, body, name", [
    (201, b'{"answer":"accepted"}', "accepted"), (200, b'{"answer":"already"}', "already"),
    (200, b'{"name":"accepted"}', "accepted"), (409, b'{"name":"FileNameTaken"}', "FileNameTaken"),
    (400, b'{"name":"BadText","answer":"x"}', "BadText"), (400, b'{"answer":"BadText"}', "BadText"),
    (400, b'{"name":"BadText"' + b" " * ((1 << 16) - 18) + b"}", "BadText")])
def test_an_answer_of_the_index(monkeypatch, status, body, name):
    reply, made = Reply(status, body), upload(file="frob-1+x.tar.gz")
    monkeypatch.setattr(LEGACY.http.client, "HTTPConnection", reply)
    assert LEGACY.asked("x:1", made, "abc", 7) == (status, name)
    assert reply.given == ("x:1", 7) and reply.is_closed
    assert reply.asked == [("PUT", "/files/frob/frob-1%2Bx.tar.gz", made.data, made.headers("abc"))]


@pytest.mark.parametrize("status, body", [
    (202, b'{"answer":"accepted"}'), (409, b'{"answer":"already"}'), (399, b'{"name":"Bad"}'), (200, b'{"name":"Bad"}'),
    (400, b'{"name":"A b"}'), (400, b'{"name":7}'), (400, b"[]"), (400, b"garbage"), (400, b'{"name":""}'),
    (400, b'{"name":"' + b"x" * (1 << 16) + b'"}')])
def test_what_is_no_answer_of_an_index(monkeypatch, status, body):
    reply = Reply(status, body)
    monkeypatch.setattr(LEGACY.http.client, "HTTPConnection", reply)
    with pytest.raises(ValueError):
        LEGACY.asked("x:1", upload(), "abc", 7)
    assert reply.is_closed


class Clock:
    """Answers that come in turn, at a clock that goes on by what is slept and by a second at each trial."""

    def __init__(self, monkeypatch, *answers):
        self.now, self.left, self.slept, self.patience = 0.0, list(answers), [], []
        with_time(monkeypatch, LEGACY, monotonic=lambda: self.now)
        with_time(monkeypatch, LEGACY, sleep=self.sleep)
        monkeypatch.setattr(LEGACY, "asked", self.asked)

    def sleep(self, seconds):
        self.slept.append(seconds)
        self.now += seconds

    def asked(self, index, made, token, seconds):
        self.patience.append(seconds)
        self.now += 1
        found = self.left.pop(0)
        if isinstance(found, Exception):
            raise found
        return found


AWAY = ConnectionRefusedError()


@pytest.mark.parametrize("answers, slept", [
    ([(201, "accepted")], []), ([AWAY, (201, "accepted")], [0.5]), ([AWAY] * 4 + [(201, "accepted")], [0.5, 1, 2, 4])])
def test_an_index_that_is_away_is_asked_again(monkeypatch, answers, slept):
    clock = Clock(monkeypatch, *answers)
    assert LEGACY.answer_to("x:1", "upload", "abc") == (201, "accepted")
    assert clock.slept == slept and clock.patience[0] == 50 and not clock.left
    assert clock.patience == [50 - number - sum(slept[:number]) for number in range(len(answers))]


@pytest.mark.parametrize("answers, slept", [
    ([AWAY] * 5, [0.5, 1, 2, 4]), ([TimeoutError()], []), ([ValueError()], []), ([http.client.BadStatusLine("x")], []),
    ([AWAY, OSError()], [0.5])])
def test_an_index_that_does_not_answer_is_told_by_503(monkeypatch, answers, slept):
    clock = Clock(monkeypatch, *answers)
    with pytest.raises(LEGACY.Refused) as refused:
        LEGACY.answer_to("x:1", "upload", "abc")
    assert refused.value.status == 503 and clock.slept == slept and not clock.left


def test_no_pause_goes_over_the_time_for_an_answer(monkeypatch):
    clock = Clock(monkeypatch, AWAY, AWAY)
    monkeypatch.setattr(LEGACY, "INDEX_SECONDS", 3.5)
    with pytest.raises(LEGACY.Refused):
        LEGACY.answer_to("x:1", "upload", "abc")
    assert clock.slept == [0.5]


def test_a_connection_is_shut_once_its_time_is_over_and_not_before():
    shut = threading.Event()
    peer = types.SimpleNamespace(shutdown=lambda way: (shut.__setattr__("way", way), shut.set()))
    with LEGACY.within(60, peer):
        pass
    for way, words in ((socket.SHUT_RD, (socket.SHUT_RD,)), (socket.SHUT_RDWR, ())):
        shut.clear()
        with LEGACY.within(0.01, peer, *words):
            assert shut.wait(60)
        assert shut.way == way
    # also one of an earlier test, which was cancelled a moment ago
    before = {*threading.enumerate()}
    with LEGACY.within(60, peer):
        # one that still waits must not keep the service from its end
        assert [it.daemon for it in {*threading.enumerate()} - before if isinstance(it, threading.Timer)] == [True]
    # what is shut already is no fault
    with LEGACY.within(0, types.SimpleNamespace(shutdown=raises(OSError()))):
        pass
