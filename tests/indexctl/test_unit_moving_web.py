"""What other servers give, also hostile ones: each reply has a bound of its length and of its time."""
from __future__ import annotations

import http.client
import socket
import threading
import time
from contextlib import contextmanager

import pytest
from indexctl.moving import web
from indexctl.moving.web import Failure, Web
from support.indexctl.scripted import always, scripted
from support.planted import catches

HEAD = b"HTTP/1.1 200 OK\r\nContent-Type: text/html\r\n"


def get(url, most=100, again=0):
    made = Web("", again, "127.0.0.1", "", threading.Event())
    try:
        return made.get(url, "*/*", most, lambda reply: reply)
    finally:
        leave(made)


def leave(made):
    for it in made.sites.values():
        it.leave()


@contextmanager
def dripping(*pieces, pause=0.0, end=b""):
    """A server that sends pieces to whoever connects, and then this one again and again: but a thousand times at the
    most, so that nobody who takes all of them fills the memory of the machine."""
    is_over = threading.Event()

    def serve():
        while not is_over.is_set():
            try:
                peer = listening.accept()[0]
            except OSError:
                return
            with peer:
                try:
                    peer.recv(4096)
                    for piece in pieces:
                        peer.sendall(piece)
                    for _ in range(1_000 if end else 0):
                        if is_over.wait(pause):
                            break
                        peer.sendall(end)
                except OSError:
                    continue
    with socket.create_server(("127.0.0.1", 0)) as listening:
        serving = threading.Thread(target=serve, daemon=True)
        serving.start()
        yield f"http://127.0.0.1:{listening.getsockname()[1]}/"
        is_over.set()
        # one that waits in accept is not woken by close alone
        listening.shutdown(socket.SHUT_RDWR)
        serving.join()


@catches("indexctl/moving/web.py", "if length is not None and length > most:", "if False:",
         ("indexctl/moving/web.py", "if size > most:", "if False:"))
@pytest.mark.parametrize("size, is_taken", [(100, True), (101, False)])
def test_a_reply_that_is_too_large_is_not_read(size, is_taken):
    body = b"x" * size
    chunked = HEAD + b"Transfer-Encoding: chunked\r\n\r\n" + f"{size:x}\r\n".encode() + body + b"\r\n0\r\n\r\n"
    for pieces in ([HEAD + f"Content-Length: {size}\r\n\r\n".encode(), body], [chunked], [HEAD + b"\r\n", body]):
        with dripping(*pieces) as url:
            if is_taken:
                assert get(url).body == body
            else:
                with pytest.raises(Failure, match="bytes"):
                    get(url)


def test_a_reply_without_an_end_is_not_read():
    with dripping(HEAD + b"\r\n", end=b"x" * 65_536) as url:
        with pytest.raises(Failure, match="it has more than 1000000 bytes"):
            get(url, 1_000_000)


@catches("indexctl/moving/web.py", "timer.start()", "pass")
@pytest.mark.timeout(60)
@pytest.mark.parametrize("pieces", [[], [HEAD], [HEAD + b"Content-Length: 99\r\n\r\n"]], ids=["status", "head", "body"])
def test_a_server_that_dawdles_is_cut_off(monkeypatch, pieces):
    monkeypatch.setattr(web, "MOST_SECONDS", 1)
    begun = time.monotonic()
    with dripping(*pieces, pause=0.1, end=b"h") as url:
        with pytest.raises(Failure, match="it took more than 1 s") as end:
            get(url, again=3)
    assert not end.value.passes and 1 <= time.monotonic() - begun < 9


@pytest.mark.parametrize("pieces", [[HEAD + b"Content-Length: 9\r\n\r\n", b"short"], [b"HTTP/1.1 "],
                                    [b"no HTTP\r\n\r\n"], [HEAD + b"Transfer-Encoding: chunked\r\n\r\n5\r\nab"]])
def test_a_reply_that_breaks_off_passes(pieces):
    with dripping(*pieces) as url:
        with pytest.raises(Failure) as end:
            get(url)
    assert end.value.passes


@catches("indexctl/moving/web.py", "with connection.getresponse() as reply:",
         "for reply in [connection.getresponse()]:", case="1")
@pytest.mark.parametrize("most", [1, 2])
def test_a_connection_that_a_reply_takes_along_is_closed_with_it(monkeypatch, most):
    replies = []

    class Seen(http.client.HTTPResponse):
        def begin(self):
            replies.append(self)
            super().begin()
    monkeypatch.setattr(http.client.HTTPConnection, "response_class", Seen)
    # without a length it ends with its connection, and the second byte is one too many for the first row
    with dripping(HEAD + b"\r\n", b"ab") as url:
        if most == 2:
            assert get(url, most).body == b"ab"
        else:
            with pytest.raises(Failure, match="it has more than 1 bytes"):
                get(url, most)
    assert [it.isclosed() for it in replies] == [True]


@pytest.mark.parametrize("status, passes", [(429, True), (500, True), (502, True), (503, True), (504, True),
                                            (404, False), (403, False), (401, False), (410, False), (302, False)])
def test_some_statuses_pass(status, passes):
    with scripted(always(status, "x/y", b"", {"Retry-After": "7"})) as server:
        with pytest.raises(Failure, match=f"^{status}") as end:
            get(server.url)
    assert (end.value.passes, end.value.status, end.value.later) == (passes, status, 7 if status != 401 else 0)


def test_what_is_compressed_is_not_read():
    with scripted(always(200, "x/y", b"x", {"Content-Encoding": "gzip"})) as server:
        with pytest.raises(Failure, match="it is compressed"):
            get(server.url)


def test_a_connection_is_kept_and_opened_again_when_the_server_closed_it():
    with scripted(always(200, "x/y", b"abc")) as server:
        made = Web("", 0, "127.0.0.1", "", threading.Event())
        for _ in range(3):
            assert made.get(server.url, "*/*", 3, lambda reply: reply.body) == b"abc"
        made.site(web.parts_of(server.url)).kept.connection.sock.shutdown(2)
        assert made.get(server.url, "*/*", 3, lambda reply: reply.body) == b"abc"
        leave(made)
    assert len(server.asked) == 4


@catches("indexctl/moving/web.py", 'if parts.scheme == "https" and parts_of(url).scheme == "http":', "if False:")
def test_no_redirect_leads_into_the_clear(monkeypatch):
    made = Web("", 0, "a", "", threading.Event())
    monkeypatch.setattr(made, "once", lambda parts, *_: (None, "http://a/"))
    with pytest.raises(Failure, match="not encrypted"):
        made.get("https://a/", "*/*", 3, lambda reply: reply)


def test_a_pause_is_bounded_and_ends_when_the_run_does(monkeypatch):
    made = Web("", 2, "127.0.0.1", "", threading.Event())
    waited = []
    monkeypatch.setattr(made.stopped, "wait", waited.append)
    with scripted(always(429, "x/y", b"", {"Retry-After": "86400"})) as server:
        with pytest.raises(Failure):
            made.get(server.url, "*/*", 3, lambda reply: reply)
    assert waited == [300, 300]
