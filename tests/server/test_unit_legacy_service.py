"""The service of index-legacy-upload on a port of loopback, whose index is a stand-in."""
import argparse
import contextlib
import socket
import threading
import time

import pytest
from support.clients.forms import asked, form, message
from support.planted import catches
from support.programs import program_of
from support.unit import calls, ends, raises

LEGACY = program_of("index-legacy-upload")
WHEEL, DATA = "frob-1.0-py3-none-any.whl", b"data"
MOST = 16_777_216


@contextlib.contextmanager
def service(monkeypatch, answer=(201, "accepted"), at_once=4):
    """The service on a port of loopback, whose index answers so; and what it is asked for."""
    given = []

    def answers(index, made, token):
        given.append((index, made.file, token))
        if isinstance(answer, Exception):
            raise answer
        return answer

    monkeypatch.setattr(LEGACY, "answer_to", answers)
    with LEGACY.Server(("127.0.0.1", 0), "x:1", at_once) as serving:
        threading.Thread(target=serving.serve_forever, kwargs={"poll_interval": 0.01}, daemon=True).start()
        yield serving, given
        serving.shutdown()


@pytest.mark.parametrize("answer, status, said", [
    ((201, "accepted"), "200 OK", f"{WHEEL} uploaded. The index keeps it without Requires-Python; other metadata"),
    ((200, "already"), "200 OK", f"{WHEEL} is there already, with the same bytes. The"),
    ((409, "FileNameTaken"), "409 FileNameTaken: This file name stands for other bytes for good. Raise", "FileName"),
    ((401, "BadToken"), "401 BadToken: No user has this token, which comes from the password", "BadToken"),
    ((404, "NoProject"), "404 NoProject: Nobody holds this name: claim it first, by `indexctl name claim frob`", ""),
    ((400, "Odd"), "400 Odd", "Odd\n"), (LEGACY.Refused(503, "later"), "503 later", "later\n")])
def test_what_a_client_is_told(monkeypatch, capsys, answer, status, said):
    with service(monkeypatch, answer) as (serving, given):
        head, body = asked(serving, message(form(WHEEL, DATA), "abc"))
    assert head.startswith(f"HTTP/1.1 {status}") and body.startswith(said), (head, body)
    assert given == [("x:1", WHEEL, "abc")] and "\r\nConnection: close" in head
    assert head.split("\r\n").count(f"X-Index-File: {WHEEL}") == 1, head
    headers = {"401": 'WWW-Authenticate: Basic realm="index"', "503": "Retry-After: 2"}
    more = headers.get(status[:3], "Content-Type: text/plain")
    assert f"\r\n{more}" in head and f"\r\nContent-Length: {len(body.encode())}" in head
    assert capsys.readouterr().err == f"{status[:3]} {WHEEL}\n"


@catches("server/bin/index-legacy-upload", "elif path == PLACE:", "elif True:")
@pytest.mark.parametrize("data, status", [
    (message(b"", method="GET"), "405 this address takes uploads by POST alone"),
    (message(form(WHEEL, DATA), Content_Length=None), "411"), (message(form(WHEEL, DATA), Content_Length="-1"), "411"),
    (message(form(WHEEL, DATA), Content_Length="9x"), "411"), (message(b"", Content_Length="9" * 18), "413"),
    (message(b"", Content_Length="9" * 19), "411"),
    (message(form(WHEEL, DATA), Transfer_Encoding="chunked"), "411"),
    (message(b""), "400 the form is empty"), (message(b"", Content_Length=MOST + (1 << 20) + 1), "413"),
    (message(form(WHEEL, DATA), Content_Type="text/plain"), "400 this is not a form"),
    (message(form(WHEEL, DATA), Content_Type="multipart/form-data"), "400 this is not a form"),
    (message(form(WHEEL, DATA), Content_Type="multipart/form-data; boundary=" + "b" * 71), "400 this is not a form"),
    (message(form(WHEEL, DATA)).replace(b"/legacy/", b"/", 1), "405 uploads go to /legacy/ of this address"),
    (message(form(WHEEL, DATA)).replace(b"/legacy/", b"/simple/?x", 1), "405 uploads go to /legacy/ of this address"),
    (message(form(WHEEL, DATA), Authorization=None), "401")])
def test_what_is_no_upload_is_told(monkeypatch, data, status):
    with service(monkeypatch) as (serving, given):
        head, _ = asked(serving, data)
    assert head.startswith(f"HTTP/1.1 {status}"), head
    assert not given and ("\r\nAllow: POST" in head) == status.startswith("405") and "X-Index-File" not in head


def test_a_form_has_as_long_as_the_use_says_and_each_piece_of_it_ten_seconds():
    assert f"A form has to arrive within {LEGACY.FORM_SECONDS} seconds." in " ".join(LEGACY.__doc__.split())
    assert LEGACY.Handler.timeout == 10


def test_a_form_that_breaks_off_is_told_by_408(monkeypatch):
    monkeypatch.setattr(LEGACY, "FORM_SECONDS", 0.05)
    with service(monkeypatch) as (serving, given):
        head, _ = asked(serving, message(form(WHEEL, DATA))[:-1])
    assert head.startswith("HTTP/1.1 408 the form did not arrive whole") and not given


def test_a_reply_to_head_has_no_body(monkeypatch):
    with service(monkeypatch) as (serving, _):
        head, body = asked(serving, message(b"", method="HEAD"))
    assert head.startswith("HTTP/1.1 405") and body == ""


def test_not_more_forms_are_read_at_once_than_may_be(monkeypatch):
    freed = []
    with service(monkeypatch, at_once=1) as (serving, _):
        for _ in range(3):
            assert asked(serving, message(form(WHEEL, DATA)))[0].startswith("HTTP/1.1 200")
        with socket.create_connection(serving.server_address) as silent:
            silent.sendall(b"POST")
            while serving.free._value:
                time.sleep(0.001)
            second = socket.create_connection(serving.server_address, timeout=60)
            second.sendall(message(form(WHEEL, DATA)))
            second.settimeout(0.1)
            with pytest.raises(TimeoutError):
                freed.append(second.recv(1))
        second.settimeout(60)
        with second:
            assert second.recv(1) == b"H"
    assert not freed


def test_the_service_ends_though_a_client_is_silent(monkeypatch):
    monkeypatch.setattr(LEGACY.Handler, "timeout", 600)
    begun = time.monotonic()
    with service(monkeypatch, at_once=1) as (serving, _):
        silent = socket.create_connection(serving.server_address)
        while serving.free._value:
            time.sleep(0.001)
    with silent:
        assert time.monotonic() - begun < 60


def test_a_thread_that_can_not_be_started_frees_its_place(monkeypatch):
    with service(monkeypatch, at_once=1) as (serving, _):
        monkeypatch.setattr(LEGACY.ThreadingMixIn, "process_request", raises(RuntimeError("no thread")))
        with pytest.raises(RuntimeError):
            serving.process_request(None, None)
        assert serving.free._value == 1


@pytest.mark.parametrize("text, place", [("127.0.0.1:0", ("127.0.0.1", 0)), ("x:65535", ("x", 65535)),
                                         ("::1:80", ("::1", 80))])
def test_a_place_to_listen(text, place):
    assert LEGACY.place(text) == place and type(LEGACY.place(text)[1]) is int


@pytest.mark.parametrize("text", ["8080", ":8080", "x:", "x:65536", "x:-1", "x:a"])
def test_what_is_no_place(text):
    with pytest.raises(argparse.ArgumentTypeError, match="is not HOST:PORT"):
        LEGACY.place(text)


def test_the_words_of_the_service(monkeypatch, capsys):
    made = []

    class Serves(contextlib.nullcontext):
        server_port = 7

        def __init__(self, *words):
            super().__init__(self)
            made.append(words)

        serve_forever = staticmethod(lambda: None)

    monkeypatch.setattr(LEGACY, "Server", Serves)
    assert ends(LEGACY, monkeypatch, capsys) == (0, "listening on 127.0.0.1:7\n", "")
    words = ["--listen", "127.0.0.2:1", "--index", "y:2", "--at-once", "64"]
    assert ends(LEGACY, monkeypatch, capsys, *words)[1] == "listening on 127.0.0.2:7\n"
    assert made == [(("127.0.0.1", 8090), "127.0.0.1:8080", 4, None), (("127.0.0.2", 1), "y:2", 64, None)]
    for number in ("0", "65"):
        assert ends(LEGACY, monkeypatch, capsys, "--at-once", number)[0] == 2
    calls(monkeypatch, LEGACY, "Server", raises(OSError("in use")))
    assert ends(LEGACY, monkeypatch, capsys)[::2] == (1, "index-legacy-upload: in use\n")
