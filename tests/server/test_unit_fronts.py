"""The list of what was removed through an nginx: its lines, the places in it, and what comes of it from another one."""
import hashlib
import http.client
import socket
import ssl
from http.server import BaseHTTPRequestHandler, HTTPServer

import pytest
from support.library import ends, followed, front, fronts
from support.planted import catches
from support.proxy import InThread
from support.unit import calls, with_time

OTHER = front.Front("packages.example", 443, "192.0.2.2")
LINES = b'{"at":1}\n{"at":2}\n{"at":3}\n'
PLACES = [fronts.Place(at, hashlib.sha256(line).hexdigest()) for at, line in zip((0, 9, 18), LINES.splitlines())]


def test_a_place_is_kept_and_one_that_is_spoilt_is_none(tmp_path):
    path = str(tmp_path / "place")
    assert followed.place_in(path, fronts.Place) is None
    followed.keep_place(path, PLACES[1])
    # a number of bytes, as it is asked for
    assert repr(followed.place_in(path, fronts.Place)) == repr(PLACES[1])
    for text in ("", "x y\n", "1\n", "1 2 3\n"):
        (tmp_path / "place").write_text(text)
        assert followed.place_in(path, fronts.Place) is None


@catches("server/lib/package_index/fronts.py", r'("" if is_whole else "\n")', r'("" if path else "\n")')
def test_a_line_is_whole_behind_one_that_a_full_disk_cut_off(tmp_path):
    path = tmp_path / "removed"
    fronts.begin_list(str(path))
    assert path.read_text() == ""
    for line in ("a\n", "b"):
        fronts.add_line(str(path), line)
    fronts.begin_list(str(path))
    assert path.read_text() == "a\nb\n"
    for torn in ("a\nb", "b"):
        path.write_text(torn)
        fronts.add_line(str(path), "\u00fc\n")
        assert path.read_bytes() == torn.encode() + b"\n\xc3\xbc\n"


def test_a_new_list_is_on_the_disk(tmp_path, monkeypatch):
    synced = calls(monkeypatch, fronts, "sync")
    fronts.begin_list(str(tmp_path / "removed"))
    assert synced == [(str(tmp_path),)]


@catches("server/lib/package_index/fronts.py", "os.fsync(kept.fileno())", "pass",
         also=["storage/test_power_cuts.py::"
               "test_a_power_cut_leaves_what_was_answered[ext4-follow_whose_place_may_be_lost]"])
def test_a_line_is_on_the_disk_before_it_is_done(tmp_path, monkeypatch):
    synced = calls(monkeypatch, fronts.os, "fsync", lambda _: (tmp_path / "removed").read_text())
    fronts.add_line(str(tmp_path / "removed"), "a")
    assert len(synced) == 1
    monkeypatch.setattr(fronts.os, "fsync", lambda _: lengths.append((tmp_path / "removed").stat().st_size))
    lengths = []
    fronts.add_line(str(tmp_path / "removed"), "b")
    assert lengths == [4]


@pytest.mark.parametrize("read, place, found", [
    (LINES, None, [0, 1, 2]), (LINES[:-1], None, [0, 1]), (b"", None, []), (b"part", None, []),
    (LINES, PLACES[0], [1, 2]), (LINES[9:], PLACES[1], [2]), (LINES[18:], PLACES[2], []), (LINES[9:-3], PLACES[1], []),
    # another list, or one whose end a power cut took
    (LINES[9:], PLACES[0], None), (b"", PLACES[2], None), (LINES[18:-1], PLACES[2], None), (b"x\n", PLACES[0], None)])
def test_the_lines_behind_a_place_are_those_of_the_same_list(read, place, found):
    came = fronts.lines_in(read, place)
    assert came == (found and [('{"at":%d}' % (it + 1), PLACES[it]) for it in found] if found is not None else None)


def test_a_line_that_is_no_text_has_a_place_too():
    (line, place), = fronts.lines_in(b"\xff\n", None)
    assert line == "\ufffd" and fronts.lines_in(b"\xff\n", place) == []


class Answers(InThread):
    """Answers by this status and body, and keeps which bytes were asked for."""

    def __init__(self, status, body):
        asked = self.asked = []

        class Handler(BaseHTTPRequestHandler):
            protocol_version = "HTTP/1.1"

            def do_GET(self):
                asked.append((self.path, self.headers["Host"], self.headers["Range"]))
                self.send_response_only(status)
                self.send_header("Content-Length", str(len(body)))
                self.end_headers()
                self.wfile.write(body)

            def log_message(self, *_):
                pass

        self.server = HTTPServer(("127.0.0.1", 0), Handler)


@pytest.mark.parametrize("status, begin, read", [(206, 9, b"0123456789"), (200, 0, b"0123456789"), (200, 9, b"9"),
                                                 (200, 11, b""), (416, 9, b"")])
def test_what_is_there_from_a_byte_on_is_asked_for(monkeypatch, status, begin, read):
    with Answers(status, b"0123456789") as answers, socket.create_connection(answers.server.server_address) as plain:
        seen = calls(monkeypatch, fronts, "connect", plain)
        assert fronts.fetched(OTHER, begin, ssl.create_default_context()) == read
        assert plain.fileno() == -1
    assert answers.asked == [("/fronts/removed", "packages.example", f"bytes={begin}-")] and seen[0][0] == OTHER


@pytest.mark.parametrize("status, why", [(403, "its fronts.conf does not"), (404, "it has no fronts.conf"),
                                         (502, "is it an nginx of this index")])
def test_another_answer_is_refused(monkeypatch, status, why):
    with Answers(status, b"") as answers, socket.create_connection(answers.server.server_address) as plain:
        calls(monkeypatch, fronts, "connect", plain)
        with pytest.raises(ends.Refused, match=f"it answers {status}: {why}"):
            fronts.fetched(OTHER, 0, ssl.create_default_context())


@pytest.fixture
def clock(monkeypatch):
    """A clock that goes by what is slept."""
    now = [100.0]
    with_time(monkeypatch, fronts, sleep=lambda seconds: now.__setitem__(0, now[0] + seconds),
              monotonic=lambda: now[0])
    return now


def test_a_list_is_read_as_it_grows_and_from_its_start_if_it_is_another(monkeypatch, clock):
    given = [LINES[:9], LINES[:12], LINES, b"x\n" * 20, b"x\n"]
    asked = calls(monkeypatch, fronts, "fetched", lambda _, begin, __: given[int(clock[0]) - 100][begin:])
    lines, found = fronts.lines_of_front(OTHER, None, 60), []
    while clock[0] < 100 + len(given) - 1 or not found or found[-1] != "":
        found.append(next(lines)[0])
    assert found == ['{"at":1}', "", "", '{"at":2}', '{"at":3}', "", *20 * ["x"], "", "x", ""]
    assert [begin for _, begin, _ in asked] == [0, 0, 0, 18, 0, 38, 0]


@pytest.mark.parametrize("end, said", [
    (ConnectionRefusedError(111, "no"), "ConnectionRefusedError"), (ssl.SSLError("no"), "SSLError"),
    (TimeoutError("no"), r"TimeoutError\('no'\): is it off, or not in other-fronts.conf\?"),
    (http.client.IncompleteRead(b"{"), "IncompleteRead"),
    (ends.Refused("it answers 403"), "it answers 403"),
    (PermissionError(1, "no"), r"PermissionError\(1, 'no'\): is it off, or not in other-fronts.conf\?")])
def test_a_failure_is_told_once_and_refused_after_the_patience(monkeypatch, clock, capsys, end, said):
    seen = []

    def fails(*_):
        seen.append(clock[0])
        raise end

    monkeypatch.setattr(fronts, "fetched", fails)
    lines = fronts.lines_of_front(OTHER, PLACES[0], 3)
    with pytest.raises(ends.Refused, match=f"no list of what 192.0.2.2 has removed: {said}"):
        for line, place in lines:
            assert (line, place) == ("", PLACES[0])
    assert seen == [100, 101, 102, 103]
    assert capsys.readouterr().err.count("asking for 3 s") == 1


def test_an_answer_ends_the_wait(monkeypatch, clock, capsys):
    came = iter([ends.Refused("a"), b"", ends.Refused("b"), b"", *[ends.Refused("c")] * 9])

    def fetched(*_):
        one = next(came)
        if isinstance(one, Exception):
            raise one
        return one

    monkeypatch.setattr(fronts, "fetched", fetched)
    with pytest.raises(ends.Refused, match="removed: c"):
        list(fronts.lines_of_front(OTHER, None, 2))
    assert clock[0] == 105 and capsys.readouterr().err.count("asking") == 3
