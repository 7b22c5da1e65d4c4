"""Functions of index-health and index-uncache at their boundaries, without a server."""
import hashlib
import http.server
import os
import socket
import threading
import types
from contextlib import contextmanager

import pytest
from support.library import cache as places
from support.library import disk
from support.planted import catches
from support.programs import program_of
from support.unit import calls, ends, raises, with_time

HEALTH, UNCACHE = program_of("index-health"), program_of("index-uncache")
WELL, ABSENT = HEALTH.Look(HEALTH.WELL), HEALTH.Look(HEALTH.ABSENT, "nobody listens")
SILENT, FAILS = HEALTH.Look(HEALTH.RESTART, "no answer"), HEALTH.Look(HEALTH.RESTART, "500 Store", is_answer=True)


@contextmanager
def answering(reply):
    class Answers(http.server.BaseHTTPRequestHandler):
        def do_GET(self):
            self.wfile.write(reply if self.path == "/names/x" else b"HTTP/1.1 404 x\r\n\r\n")

    with http.server.HTTPServer(("127.0.0.1", 0), Answers) as serving:
        threading.Thread(target=serving.serve_forever, kwargs={"poll_interval": 0.01}, daemon=True).start()
        yield f"127.0.0.1:{serving.server_port}"
        serving.shutdown()


@pytest.mark.parametrize("reply, status, seen", [
    (b"HTTP/1.1 200 OK\r\n\r\n{}", 0, ""), (b"HTTP/1.1 500 x\r\n\r\nStore\xff", 8, "500 Store\ufffd"),
    (b"HTTP/1.1 201 x\r\n\r\n", 8, "201 "), (b"HTTP/1.1 500 x\r\n\r\n" + b"y" * 300, 8, "500 " + "y" * 200),
    (b"garbage\r\n\r\n", 8, "no answer: BadStatusLine"), (b"", 3, "nobody listens: RemoteDisconnected")])
def test_an_answer_tells_how_the_index_is(reply, status, seen):
    with answering(reply) as address:
        found = HEALTH.look(address, 60)
    assert found.status == status and (found.seen == seen or seen and found.seen.startswith(seen) and ":" in seen)
    assert found.is_answer == (status == 8 and seen[0] in "25")


def test_who_says_nothing_in_time_is_restarted_and_who_is_away_is_not():
    with socket.create_server(("127.0.0.1", 0)) as silent:
        address = "127.0.0.1:%d" % silent.getsockname()[1]
        assert HEALTH.look(address, 0.05)[::2] == (8, False)
    found = HEALTH.look(address, 60)
    assert (found.status, found.seen.partition(":")[0]) == (3, "nobody listens")


def test_a_process_that_is_there_is_seen_also_if_it_is_anothers(monkeypatch):
    assert HEALTH.is_there(os.getpid())
    for end, is_there in ((ProcessLookupError(), False), (PermissionError(), True)):
        asked = calls(monkeypatch, HEALTH.os, "kill", raises(end))
        assert HEALTH.is_there(7) is is_there and asked == [(7, 0)]


class Clock:
    """Looks that give these, at a clock that goes on by a second at each pause."""

    def __init__(self, monkeypatch, *looks):
        self.now, self.left, self.slept = 100.0, list(looks), []
        with_time(monkeypatch, HEALTH, monotonic=lambda: self.now)
        with_time(monkeypatch, HEALTH, sleep=self.sleep)
        self.asked = calls(monkeypatch, HEALTH, "look", lambda *_: self.left.pop(0))

    def sleep(self, seconds):
        self.slept.append(seconds)
        self.now += 1


@pytest.mark.parametrize("looks, found, pauses", [
    ([WELL], WELL, 0), ([SILENT], SILENT, 0), ([FAILS], FAILS, 0), ([ABSENT, ABSENT, WELL], WELL, 2),
    ([ABSENT] * 5, ABSENT, 4)])
def test_somebody_who_listens_is_waited_for(monkeypatch, looks, found, pauses):
    clock = Clock(monkeypatch, *looks)
    assert HEALTH.looked("x:1", 3) == found and clock.slept == [0.2] * pauses and not clock.left
    assert clock.asked == [("x:1", 3)] * len(looks)


@pytest.mark.parametrize("looks, found", [
    ([WELL], WELL), ([FAILS], FAILS), ([ABSENT, SILENT, WELL], WELL), ([ABSENT, SILENT, FAILS], FAILS)])
def test_a_start_is_waited_for_and_an_answer_that_comes_too_late_is_none(monkeypatch, looks, found):
    clock = Clock(monkeypatch, *looks)
    monkeypatch.setattr(HEALTH, "is_there", lambda process: process == 7)
    assert HEALTH.started("x:1", 60, 7) == found and not clock.left
    assert clock.slept == [0.2] * (len(looks) - 1) and clock.asked == [("x:1", 60)] * len(looks)


@catches("server/bin/index-health", 'text = start.how_far() if start else ""', 'text = ""')
def test_how_far_a_start_is_is_said_while_it_goes_on(monkeypatch, capsys):
    Clock(monkeypatch, ABSENT, SILENT, ABSENT, WELL)
    monkeypatch.setattr(HEALTH, "is_there", lambda _: True)
    said = ["", "it is half done", ""]
    assert HEALTH.started("x:1", 60, 7, types.SimpleNamespace(how_far=lambda: said.pop(0))) == WELL and not said
    assert capsys.readouterr().err == "index-health: it is half done\n"


def test_a_start_that_ended_is_told(monkeypatch):
    clock, there = Clock(monkeypatch, ABSENT, ABSENT), [True, True, False]
    monkeypatch.setattr(HEALTH, "is_there", lambda _: there.pop(0))
    assert HEALTH.started("x:1", 60, 7) == (3, "the process 7 ended before it answered", False) and not clock.left


def test_the_words_of_a_look_and_its_status(monkeypatch, capsys):
    looked, started = calls(monkeypatch, HEALTH, "looked", WELL), calls(monkeypatch, HEALTH, "started", FAILS)
    assert ends(HEALTH, monkeypatch, capsys) == (0, "", "")
    words = ["--start", "7", "--patience", "2.5", "http://x:9/y"]
    assert ends(HEALTH, monkeypatch, capsys, *words) == (8, "", "index-health: 500 Store\n")
    assert (looked, started) == ([("127.0.0.1:8080", 60)], [("x:9", 2.5, 7, None)])
    ends(HEALTH, monkeypatch, capsys, "--start", "0", "http://x:9")
    assert started[1] == ("x:9", 60, 0, None)
    assert ends(HEALTH, monkeypatch, capsys, "--db", "x.db")[0] == 2
    assert ends(HEALTH, monkeypatch, capsys, "a", "b")[0] == 2


@pytest.mark.parametrize("least, status", [(6, 0), (7, 9)])
def test_little_room_is_a_status_of_its_own(tmp_path, monkeypatch, least, status):
    free = 7 * (1 << 20) - 1 if least == 7 else 6 << 20
    asked = calls(monkeypatch, HEALTH.shutil, "disk_usage", types.SimpleNamespace(free=free))
    found = HEALTH.look_at_room(["/a", "/b"], least)
    said = "make room: /a has 6 MiB left, /b has 6 MiB left" if status else ""
    assert (found.status, found.seen) == (status, said) and set(asked) == {("/a",), ("/b",)}


def test_a_folder_that_is_not_there_is_passed_over_and_one_that_can_not_be_looked_at_is_not(tmp_path, monkeypatch):
    assert HEALTH.look_at_room([f"{tmp_path}/none", tmp_path], 0) == WELL
    monkeypatch.setattr(HEALTH.shutil, "disk_usage", raises(PermissionError(13, "denied")))
    with pytest.raises(PermissionError):
        HEALTH.look_at_room(["/a"], 0)


@catches("server/bin/index-health", "elif files_left(folder) < FILES:", "elif files_left(folder) < 0:",
         case="5000-999-9")
@catches("server/bin/index-health", 'return disk.f_favail if disk.f_files else float("inf")', "return disk.f_favail",
         case="0-0-0")
@pytest.mark.parametrize("bound, left, status", [(5_000, 999, 9), (5_000, 1_000, 0), (5_000, 0, 9), (0, 0, 0)])
def test_a_disk_that_takes_no_more_files_is_told_though_it_has_room(tmp_path, monkeypatch, bound, left, status):
    """Clients get an empty reply for what nginx keeps. A file system such as btrfs has no bound."""
    monkeypatch.setattr(HEALTH.shutil, "disk_usage", lambda _: types.SimpleNamespace(free=1 << 30))
    monkeypatch.setattr(os, "statvfs", lambda _: types.SimpleNamespace(f_files=bound, f_favail=left))
    found = HEALTH.look_at_room([str(tmp_path)], 256)
    said = f"make room: {tmp_path} can take {left} more files (df -i)" if status else ""
    assert (found.status, found.seen) == (status, said)


def test_room_is_looked_at_only_if_the_index_is_well(monkeypatch, capsys):
    little = HEALTH.Look(HEALTH.LITTLE_ROOM, "make room")
    rooms = calls(monkeypatch, HEALTH, "look_at_room", little)
    words = ["--room", "/a", "--room", "/b"]
    for found, status, said in ((WELL, 9, "make room"), (SILENT, 8, "no answer"), (ABSENT, 3, "nobody listens")):
        calls(monkeypatch, HEALTH, "looked", found)
        assert ends(HEALTH, monkeypatch, capsys, *words) == (status, "", f"index-health: {said}\n")
    assert rooms == [(["/a", "/b"], 256)]
    calls(monkeypatch, HEALTH, "looked", WELL)
    ends(HEALTH, monkeypatch, capsys, "--least", "5")
    assert rooms[1:] == [([], 5)]


class Cache:
    """nginx's folder with files of these keys, each where nginx has it."""

    def __init__(self, folder, *keys):
        self.folder = folder
        for key in keys:
            path = self.place(key)
            path.parent.mkdir(parents=True, exist_ok=True)
            path.write_bytes(b"\3\0\0" + bytes(20) + b"\nKEY: " + key.encode() + b"\nHTTP/1.1 200 OK\nKEY: no\n")

    def place(self, key):
        digest = hashlib.md5(key.encode()).hexdigest()
        return self.folder / digest[-1] / digest[-3:-1] / digest

    def left(self):
        return {UNCACHE.key_of(f"{at}/{name}") for at, _, names in os.walk(self.folder) for name in names}


KEYS = ("/files/frob/frob-1.0+x.tar.gz", "/files/frob/Frob-1.0-py3-none-any.whl", "/files/frob2/frob2-1.tar.gz",
        "/files/fro/fro-1.tar.gz")


def test_a_key_stands_at_the_head_of_a_file_and_is_where_nginx_has_it(tmp_path):
    cache = Cache(tmp_path, *KEYS)
    assert places.place_of_file(str(tmp_path), "Frob", "frob-1.0+x.tar.gz") == str(cache.place(KEYS[0]))
    assert UNCACHE.key_of(str(cache.place(KEYS[0]))) == KEYS[0] and UNCACHE.key_of(f"{tmp_path}/none") == ""
    for data, key in ((b"no key", ""), (b"\nKEY: \xff\n", "\ufffd"), (bytes(4089) + b"\nKEY: a\n", "a"),
                      (bytes(4095) + b"\nKEY: a\n", "")):
        (tmp_path / "x").write_bytes(data)
        assert UNCACHE.key_of(str(tmp_path / "x")) == key


@pytest.mark.parametrize("words, gone", [
    (["frob", "frob-1.0+x.tar.gz"], KEYS[:1]), (["FROB", "FROB_1.0+x.tar.gz"], KEYS[:1]),
    (["frob", "https://x/files/frob/frob-1.0%2Bx.tar.gz"], KEYS[:1]), (["Frob"], KEYS[:2]),
    (["/files/frob/frob-1.0+x.tar.gz"], KEYS[:1]), (["files/Frob/FROB-1.0%2Bx.tar.gz"], KEYS[:1]),
    (["https://x/files/frob/frob-1.0%2Bx.tar.gz#sha256=12"], KEYS[:1])])
def test_a_file_or_all_of_a_project_are_taken_out(tmp_path, monkeypatch, capsys, words, gone):
    cache = Cache(tmp_path, *KEYS)
    status, out, err = ends(UNCACHE, monkeypatch, capsys, *words, "--cache", f"{tmp_path}/")
    assert (status, err, cache.left()) == (0, "", set(KEYS) - set(gone))
    assert sorted(out.splitlines()) == sorted(f"removed {it}" for it in gone)


@pytest.mark.parametrize("words", [["/files/frob/"], ["/files/frob"], ["https://x/simple/frob/"], ["frob/"],
                                   ["/files/frob/frob-1.0+x.tar.gz", "frob-1.0+x.tar.gz"]])
def test_an_address_of_no_file_is_a_wrong_command(tmp_path, monkeypatch, capsys, words):
    cache = Cache(tmp_path, *KEYS)
    status, out, err = ends(UNCACHE, monkeypatch, capsys, *words, "--cache", tmp_path)
    assert (status, out, cache.left()) == (2, "", set(KEYS))
    reason = "no name of a project, and no address of a file such as /files/NAME/FILE"
    assert err == f"index-uncache: {words[0]}: {reason}\n"


def test_a_file_that_is_found_by_its_place_is_not_looked_for(tmp_path, monkeypatch, capsys):
    Cache(tmp_path, *KEYS)
    monkeypatch.setattr(UNCACHE.os, "walk", raises(AssertionError))
    assert ends(UNCACHE, monkeypatch, capsys, "frob", "frob-1.0+x.tar.gz", "--cache", tmp_path)[0] == 0


def test_what_nginx_does_not_keep_is_told_with_what_it_keeps(tmp_path, monkeypatch, capsys):
    many = [f"/files/many/many-{number}.tar.gz" for number in range(11)]
    cache = Cache(tmp_path, *KEYS, *many)
    said = ends(UNCACHE, monkeypatch, capsys, "frob", "x.whl", "--cache", tmp_path)
    kept = "Frob-1.0-py3-none-any.whl, frob-1.0+x.tar.gz"
    assert said == (1, "", f"index-uncache: nginx keeps no /files/frob/x.whl, but {kept}\n")
    said = ends(UNCACHE, monkeypatch, capsys, "none", "--cache", tmp_path)
    assert said == (1, "", "index-uncache: nginx keeps no /files/none/\n")
    said = ends(UNCACHE, monkeypatch, capsys, "many", "x", "--cache", tmp_path)[2]
    assert said.partition(", but ")[2] == ", ".join(sorted(it.rpartition("/")[2] for it in many)[:9]) + "\n"
    assert cache.left() == {*KEYS, *many}


def test_what_nginx_removed_meanwhile_is_told_as_removed(tmp_path, capsys):
    UNCACHE.take_out("frob", [UNCACHE.Kept("x.whl", str(tmp_path / "none"))])
    assert capsys.readouterr().out == "removed /files/frob/x.whl\n"


def test_a_folder_that_is_not_there_or_can_not_be_read_is_told(tmp_path, monkeypatch, capsys):
    said = ends(UNCACHE, monkeypatch, capsys, "frob", "--cache", tmp_path / "none")
    assert said == (2, "", f"index-uncache: {tmp_path}/none is not there; name nginx's folder by --cache\n")
    monkeypatch.setattr(UNCACHE.os, "walk", lambda path, onerror: onerror(PermissionError(13, "denied")))
    said = ends(UNCACHE, monkeypatch, capsys, "frob", "--cache", tmp_path)
    assert said == (2, "", "index-uncache: [Errno 13] denied\n")


def test_a_disk_that_takes_no_writes_is_told(tmp_path, monkeypatch):
    """As after an error of that disk: reads go on, and the index answers."""
    monkeypatch.setattr(HEALTH, "takes_no_writes", lambda folder: folder == str(tmp_path))
    found = HEALTH.look_at_room([str(tmp_path), "/"], 0)
    assert (found.status, found.seen) == (
        9, f"{tmp_path} takes no writes: its file system is read-only, as after an error of its disk (dmesg)")


@pytest.mark.parametrize("folder, shut", [
    ("/srv/a b", True), ("/srv/a b/c", True), ("/srv/a bc", False), ("/srv", False), ("/", False), ("/var/x", True),
    ("/var/log/x", False), ("/opt/x", True)])
def test_a_file_system_is_that_of_the_deepest_mount_and_its_own_options_count(tmp_path, folder, shut):
    """As proc(5) has it: the options of the mount stand before the dash, and those of the file system last. A unit has
    mounts of its own that are read-only."""
    (tmp_path / "mountinfo").write_text(
        "22 1 8:1 / / ro,relatime shared:1 - ext4 /dev/sda1 rw,errors=remount-ro\n"
        "36 22 8:2 / /var rw,noatime - ext4 /dev/sda2 ro,errors=remount-ro\n"
        "37 36 8:3 / /var/log ro - ext4 /dev/sda3 ro\n"
        "38 36 8:4 / /var/log ro - ext4 /dev/sda4 rw\n"
        "39 22 0:40 /x /srv/a\\040b rw master:1 propagate_from:2 - ext4 /dev/sdb rw,emergency_ro\n"
        "40 22 8:5 / /opt rw - xfs /dev/sdc rw,shutdown\n")
    assert disk.takes_no_writes(folder, str(tmp_path / "mountinfo")) is shut


def test_little_room_hides_no_nginx_that_is_gone():
    room, front = HEALTH.Look(9, "room"), HEALTH.Look(10, "nginx")
    assert HEALTH.both(room, front) == HEALTH.Look(11, "room; nginx")
    assert (HEALTH.both(room, WELL), HEALTH.both(WELL, front), HEALTH.both(WELL, WELL)) == (room, front, WELL)
