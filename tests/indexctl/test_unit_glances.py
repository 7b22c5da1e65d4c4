"""Standings that are asked for at a glance: several on one connection that is kept, and which replies are seen so."""
from __future__ import annotations

import re
import socket

import pytest
from indexctl import transport
from indexctl.transport import NotSent, Request
from support.indexctl.listener import PLAIN, Listener, index_of
from support.planted import catches
from support.unit import raises, with_time


def glances(connections, count):
    with Listener(*connections) as listener:
        index = index_of(listener.url, basic="ann:x")
        found = [index.glances(["/names/a"])[0] for _ in range(count)]
        index.leave()
    return found, listener.came


@catches("indexctl/transport.py", '"Accept-Encoding": "identity", **self.headers}', '"Accept-Encoding": "identity"}')
@pytest.mark.parametrize("pieces", [
    [PLAIN + b"\r\nok"], [PLAIN + b"\r\n", b"ok"], [PLAIN[:20], PLAIN[20:] + b"\r", b"\no", b"k"],
    [PLAIN.lower().replace(b"http", b"HTTP") + b"\r\nok"]])
def test_a_plain_reply_is_seen_at_a_glance(pieces):
    found, came = glances([[pieces]], 1)
    assert found == [b"ok"]
    assert came[0].startswith(b"GET /names/a HTTP/1.1\r\nHost: 127.0.0.1:") and came[0].endswith(b"\r\n\r\n")
    assert b"\r\nAuthorization: Basic YW5uOng=\r\n" in came[0]


class Pieces:
    """The end of a connection on which these pieces come, and then nothing."""

    def __init__(self, *pieces):
        self.pieces = list(pieces)

    def recv(self, _):
        return self.pieces.pop(0) if self.pieces else b""


def plain(count, *pieces):
    """What is read of so many replies, and whether nothing more may be asked."""
    found = []
    is_last = transport.read_plain(Pieces(*pieces), count, found)
    return found, is_last


@catches("indexctl/transport.py", "while len(given) < length:", "while len(given) < min(1, length):")
def test_all_pieces_of_a_plain_reply_are_read():
    assert plain(1, PLAIN[:9], PLAIN[9:], b"\r\n", b"o", b"k") == ([b"ok"], False)
    assert plain(1, PLAIN, b"\r\n", b"o") == ([None], True)


ONE, OTHER, LAST = PLAIN + b"\r\nok", PLAIN + b"\r\nno", PLAIN + b"Connection: close\r\n\r\nok"


@pytest.mark.parametrize("pieces, found, is_last", [
    ([ONE + OTHER + ONE], [b"ok", b"no", b"ok"], False),
    ([(ONE + OTHER + ONE)[at:at + 1] for at in range(3 * len(ONE))], [b"ok", b"no", b"ok"], False),
    ([ONE + OTHER[:-1], OTHER[-1:] + ONE[:9], ONE[9:]], [b"ok", b"no", b"ok"], False),
    ([ONE + LAST + ONE], [b"ok", b"ok"], True), ([ONE + OTHER], [b"ok", b"no", None], True),
    ([ONE + OTHER + ONE + b"x"], [b"ok", b"no", None], True),
    ([ONE + b"HTTP/1.1 404 Not Found\r\nContent-Length: 2\r\n\r\nok" + ONE], [b"ok", None], True)])
def test_several_replies_come_behind_each_other(pieces, found, is_last):
    assert plain(3, *pieces) == (found, is_last)


def asked_in(came):
    """The paths that were asked for by what came at once."""
    return [re.findall(rb"GET (\S+) HTTP/1.1\r\n", it) for it in came]


def test_on_a_kept_connection_several_go_out_at_once():
    paths = [f"/names/{at}" for at in range(19)]
    with Listener([[ONE], [ONE + 15 * OTHER], [LAST]], [[ONE], [OTHER]]) as listener:
        index = index_of(listener.url)
        assert index.glances(paths) == [b"ok", b"ok", *15 * [b"no"], b"ok", b"ok"]
        assert index.glances(paths[:1]) == [b"no"]
        index.leave()
    assert asked_in(listener.came) == [[it.encode() for it in some] for some in (
        paths[:1], paths[1:17], paths[17:], paths[18:], paths[:1])]


@catches("indexctl/transport.py", "self.kept.ahead = 1 if is_last else MOST_AHEAD", "self.kept.ahead = MOST_AHEAD")
def test_what_a_reply_that_is_the_last_leaves_is_asked_on_another_connection():
    """One at a time there, until it is seen that it is kept."""
    with Listener([[LAST]], [[LAST]], [[OTHER], [OTHER]]) as listener:
        index = index_of(listener.url)
        assert index.glances(["/a", "/b", "/c", "/d"]) == [b"ok", b"ok", b"no", b"no"]
        index.leave()
    assert asked_in(listener.came) == [[b"/a"], [b"/b"], [b"/c"], [b"/d"]]


@pytest.mark.parametrize("failure", [NotSent("no connection"), socket.timeout(), ConnectionResetError()])
def test_behind_a_failure_nothing_is_asked_at_a_glance(monkeypatch, failure):
    """Each may wait as long as the first did. `ask` says what there is to say."""
    tried, fail, index = [], raises(failure), index_of("http://127.0.0.1:9")
    monkeypatch.setattr(index, "kept_connection", lambda: tried.append(1) or fail())
    assert index.glances(["/a", "/b", "/c"]) == 3 * [None] and len(tried) == 1


@catches("indexctl/transport.py", "found, self.found = self.found, None", "found = self.found")
def test_the_address_of_a_host_is_found_once_and_again_after_a_failure(monkeypatch):
    found, look = [], socket.getaddrinfo
    monkeypatch.setattr(socket, "getaddrinfo", lambda *it: found.append(it) or look(*it))
    with Listener([[LAST]], [[LAST]], [[LAST]]) as listener:
        index = index_of(listener.url)
        assert index.glances(["/a", "/b", "/c"]) == 3 * [b"ok"] and len(found) == 1
    assert index.glances(["/a"]) == [None] and len(found) == 1
    assert index.glances(["/a"]) == [None] and len(found) == 2


@catches("indexctl/transport.py", 'is_plain = (head.startswith(b"http/1.1 200 ") and', "is_plain = (")
@catches("indexctl/transport.py", "and not CODED.search(head))", ")")
@catches("indexctl/transport.py", "is_plain = is_plain and bool(count or not given)", "")
@pytest.mark.parametrize("reply_", [
    b"HTTP/1.1 404 Not Found\r\nContent-Length: 2\r\n\r\nok", b"HTTP/1.0 200 OK\r\nContent-Length: 2\r\n\r\nok",
    PLAIN + b"Transfer-Encoding: chunked\r\n\r\nok", PLAIN + b"Content-Encoding: gzip\r\n\r\nok",
    PLAIN + b"Content-Length: 2\r\n\r\nok", PLAIN + b"Content-Length: 9x\r\n\r\nok", PLAIN + b"\r\nokay",
    PLAIN + b"\r\no", PLAIN, b"HTTP/1.1 200 OK\r\n\r\nok", b"HTTP/1.1 200 OK\r\nX: content-length: 2\r\n\r\nok",
    b"\r\n\r\n", b"", b"HTTP/1.1 200 OK\r\nX: " + b"x" * 300_000])
def test_any_other_reply_is_not_seen_at_a_glance_and_ends_its_connection(reply_):
    found, _ = glances([[[reply_]], [[PLAIN + b"\r\nok"]]], 2)
    assert found == [None, b"ok"]


@catches("indexctl/transport.py", "is_last = True", "is_last = False")
def test_a_connection_that_is_reset_is_not_asked_again():
    assert glances([[], [[PLAIN + b"\r\nok"]]], 2)[0] == [None, b"ok"]


@catches("indexctl/transport.py", "if is_last:", "if True:")
def test_a_connection_is_kept_from_glance_to_glance():
    plain = [PLAIN + b"\r\nok"]
    assert glances([[plain, plain, plain]], 3)[0] == 3 * [b"ok"]


@catches("indexctl/transport.py", r'is_last = not is_plain or b"\r\nconnection: close\r\n" in head',
         "is_last = not is_plain")
def test_a_connection_that_the_reply_ends_is_not_asked_again():
    last = [PLAIN + b"Connection: close\r\n\r\nok"]
    assert glances([[last], [last]], 2)[0] == 2 * [b"ok"]


def test_where_nobody_listens_a_glance_shows_nothing():
    with socket.socket() as taken:
        taken.bind(("127.0.0.1", 0))
        assert index_of(f"http://127.0.0.1:{taken.getsockname()[1]}").glances(["/x"]) == [None]


def test_a_kept_connection_that_was_closed_meanwhile_is_opened_again_at_once(monkeypatch):
    with_time(monkeypatch, transport, sleep=lambda _: pytest.fail("a pause"))
    plain = [PLAIN + b"\r\nok"]
    with Listener([plain], [plain]) as listener:
        index = index_of(listener.url)
        assert index.glances(["/x"]) == [b"ok"]
        assert index.kept.connection.sock.recv(1) == b"", "the listener has closed it"
        assert index.glances(["/x"]) == [None] and index.ask("x", Request("GET", "/x")).body == b"ok"
        index.leave()


def test_a_glance_that_is_interrupted_ends_its_connection(monkeypatch):
    """Else the next one would read the rest of its reply."""
    monkeypatch.setattr(transport, "read_plain", raises(KeyboardInterrupt()))
    with Listener([[]]) as listener:
        index = index_of(listener.url)
        with pytest.raises(KeyboardInterrupt):
            index.glances(["/x"])
        assert index.kept.connection.sock is None
