"""Functions of index-restore at their boundaries, without the program."""
import contextlib
import datetime
import http.server
import os
import shutil
import socket
import threading
import types

import pytest
from support.library import disk, exchange
from support.library import ends as library_ends
from support.planted import catches
from support.programs import program_of
from support.unit import calls, raises, with_time

RESTORE = program_of("index-restore")
Refused = library_ends.Refused
DATABASE = b"SQLite format 3\0"
UTC = datetime.timezone.utc


@pytest.fixture
def copies(tmp_path):
    """A folder with two copies, and none of them is the database."""
    for name in ("index-20260101T000000Z.db", "index-20260102T000000Z.db"):
        (tmp_path / name).write_bytes(DATABASE)
    return tmp_path


def refusal(copy, db, is_older=False):
    with pytest.raises(Refused) as refused:
        RESTORE.look_at_copy(str(copy), str(db), is_older)
    return str(refused.value)


def test_a_newer_copy_is_told_and_the_newest_is_taken(copies):
    old, new, none = copies / "index-20260101T000000Z.db", copies / "index-20260102T000000Z.db", str(copies / "none")
    assert refusal(old, none) == f"{old}: {new} is newer; name that one, or add --older"
    RESTORE.look_at_copy(str(old), none, True)
    RESTORE.look_at_copy(str(new), none, False)


def test_a_copy_of_a_later_time_than_now_is_refused_and_is_not_the_last(copies):
    later, new = copies / "index-21000101T000000Z.db", copies / "index-20260102T000000Z.db"
    later.write_bytes(DATABASE)
    assert "21000101T000000Z.db is of a later time than now, 20" in refusal(later, "/none")
    assert "look at the clock (timedatectl)" in refusal(later, "/none", True)
    RESTORE.look_at_copy(str(new), "/none", False)
    # of another name it is when it was written
    (copies / "sealed.db").write_bytes(DATABASE)
    RESTORE.look_at_copy(str(copies / "sealed.db"), "/none", False)
    os.utime(copies / "sealed.db", (4e9, 4e9))
    assert "look at the clock (timedatectl)" in refusal(copies / "sealed.db", "/none")


def test_a_copy_of_this_second_is_taken(copies):
    now = datetime.datetime.now(UTC)
    copy = copies / f"index-{now:%Y%m%dT%H%M%S}Z.db"
    copy.write_bytes(DATABASE)
    RESTORE.look_at_copy(str(copy), "/none", False)
    assert f": {copy} is newer; name" in refusal(copies / "index-20260102T000000Z.db", "/none")


@catches("server/bin/index-restore", "if COPY.fullmatch(it) and it <=", "if it <=")
def test_only_copies_of_index_backup_are_newer(copies):
    # (by their names alone, these would be newer than the copy, and of no later time than now)
    for name in ("index-20260103T000000Z.db.part", "index-20260103T000000Z.kept.db", "index-20260103.db"):
        (copies / name).write_bytes(DATABASE)
    RESTORE.look_at_copy(str(copies / "index-20260102T000000Z.db"), "/none", False)
    # one of another name is not compared
    (copies / "index.db").write_bytes(DATABASE)
    RESTORE.look_at_copy(str(copies / "index.db"), "/none", False)


def test_a_copy_that_was_renamed_is_taken_where_it_stands_alone(tmp_path):
    copy = tmp_path / "index-20260102T000000Z.kept.db"
    copy.write_bytes(DATABASE)
    RESTORE.look_at_copy(str(copy), "/none", False)


def test_what_is_no_copy_is_refused(copies):
    (copies / "text.db").write_bytes(b"SQLite format 3\n and more")
    copy = copies / "index-20260102T000000Z.db"
    assert refusal("", "/none") == "no copy is named: give the path of a file that index-backup made"
    assert refusal(copies / "none.db", "/none") == f"{copies}/none.db: No such file or directory"
    assert refusal(copies / "text.db", "/none") == f"{copies}/text.db: not a database"
    os.link(copy, copies / "index.db")
    assert refusal(copy, copies / "index.db") == f"{copy}: this is the database itself, not a copy of it"
    os.remove(copies / "index.db")
    (copies / "index.db").write_bytes(DATABASE)
    RESTORE.look_at_copy(str(copy), str(copies / "index.db"), False)


@catches("server/bin/index-restore", "if index_of(copy) and index_of(copy) != index_of(db):", "if False:")
def test_a_copy_of_another_index_is_refused(copies):
    """Of several, whose databases and copies stand in folders that are named by their ports."""
    os.mkdir(copies / "8081")
    copy = copies / "8081" / "index-20260102T000000Z.db"
    copy.write_bytes(DATABASE)
    for db, of_other in ((f"{copies}/8081/index.db", False), (f"{copies}/8082/index.db", True),
                         (f"{copies}/index.db", True)):
        if of_other:
            assert refusal(copy, db) == f"{copy}: this is a copy of the index at port 8081, and {db} is of another one"
        else:
            RESTORE.look_at_copy(str(copy), db, False)
    # a copy that stands elsewhere may be of any
    RESTORE.look_at_copy(str(copies / "index-20260102T000000Z.db"), f"{copies}/8082/index.db", False)


@pytest.mark.parametrize("end", ["", "-wal"])
def test_a_complete_copy_is_not_older_than_the_database_or_its_log(tmp_path, end):
    copy, db = tmp_path / "copy.db", str(tmp_path / "index.db")
    for path in (copy, db, f"{db}-wal"):
        with open(path, "w"):
            os.utime(path, ns=(1000, 1000))
    RESTORE.want_complete(str(copy), db)
    os.utime(db + end, ns=(1001, 1001))
    with pytest.raises(Refused) as refused:
        RESTORE.want_complete(str(copy), db)
    assert str(refused.value).startswith(f"{db}{end} was written after {copy}, and --complete would lose")
    # an index without a log, and none at all
    for gone in (f"{db}-wal", db):
        os.utime(db, ns=(1000, 1000))
        os.remove(gone)
        RESTORE.want_complete(str(copy), db)


@pytest.mark.parametrize("ends_there", [("",), ("", "-wal"), ("", "-wal", "-shm", "-journal")])
def test_a_copy_is_put_beside_with_its_log_and_tested_before_it_is_given_away(tmp_path, monkeypatch, ends_there):
    for end in ends_there:
        (tmp_path / f"copy.db{end}").write_bytes(f"copy{end}".encode())
    order, folder = [], tmp_path / "beside"

    def tests(command, path):
        order.append((command, os.path.realpath(path)))
        assert sorted(os.listdir(folder)) == sorted(f"index.db{it}" for it in ends_there if it in ("", "-wal"))

    monkeypatch.setattr(RESTORE, "run", tests)
    monkeypatch.setattr(RESTORE, "sync", lambda path: order.append(("sync", os.path.realpath(path))))
    monkeypatch.setattr(RESTORE.os, "chown", lambda path, *ids: order.append(("chown", os.path.realpath(path), *ids)))
    RESTORE.put_beside(str(tmp_path / "copy.db"), str(folder), types.SimpleNamespace(st_uid=7, st_gid=8))
    made = f"{folder}/index.db"
    # (another user than root gives nothing away)
    given = [] if os.geteuid() else [("chown", made, 7, 8)]
    assert order == [(f"{RESTORE.HERE}/index-verify", made), *given, ("sync", made)]
    assert folder.stat().st_mode & 0o777 == 0o700 and os.stat(made).st_mode & 0o777 == 0o600


def led_elsewhere(folder, elsewhere):
    """What the user of the index may do beside its database: a link in the place of a folder of root."""
    os.rename(folder, f"{folder}-moved")
    os.symlink(elsewhere, folder)


@catches("server/bin/index-restore", 'f"{made_own(folder)}/index.db"', 'f"{made_own(folder) and folder}/index.db"')
def test_a_copy_is_given_away_in_the_folder_that_was_made_and_not_where_a_link_leads(tmp_path, monkeypatch):
    (tmp_path / "copy.db").write_bytes(b"copy")
    folder, elsewhere, given = str(tmp_path / "beside"), tmp_path / "elsewhere", []
    elsewhere.mkdir()
    monkeypatch.setattr(RESTORE, "copy_file", lambda source, target: (led_elsewhere(folder, elsewhere),
                                                                      shutil.copy(source, target)))
    monkeypatch.setattr(RESTORE, "run", lambda *_: None)
    monkeypatch.setattr(RESTORE.os, "chown", lambda path, *_: given.append(os.path.realpath(path)))
    RESTORE.put_beside(str(tmp_path / "copy.db"), folder, types.SimpleNamespace(st_uid=7, st_gid=8))
    assert given == ([] if os.geteuid() else [f"{folder}-moved/index.db"]) and not os.listdir(elsewhere)
    assert os.listdir(f"{folder}-moved") == ["index.db"]


@catches("server/lib/package_index/exchange.py", "at = made_own(aside)", "at = made_own(aside) and aside")
def test_old_files_are_put_into_the_folder_that_was_made_and_not_where_a_link_leads(tmp_path, monkeypatch):
    db, aside, elsewhere = tmp_path / "index.db", str(tmp_path / "aside"), tmp_path / "elsewhere"
    elsewhere.mkdir()
    for path in (db, tmp_path / "made"):
        path.write_text(path.name)
    monkeypatch.setattr(exchange, "made_own", lambda path: (disk.made_own(path), led_elsewhere(path, elsewhere))[0])
    exchange.exchange(str(db), str(tmp_path / "made"), aside, "note")
    assert sorted(os.listdir(f"{aside}-moved")) == ["index.db", "unfinished"] and not os.listdir(elsewhere)


@catches("server/lib/package_index/disk.py", "os.O_DIRECTORY | os.O_NOFOLLOW", "os.O_DIRECTORY")
@catches("server/lib/package_index/disk.py", "if os.fstat(opened).st_uid != os.geteuid():",
         "if os.fstat(opened).st_uid == -1:")
def test_a_folder_is_its_own_user_s_and_no_link(tmp_path, monkeypatch):
    folder, linked = tmp_path / "folder", tmp_path / "linked"
    at = disk.made_own(str(folder))
    assert folder.stat().st_mode & 0o777 == 0o700 and os.path.samefile(at, folder)
    folder.rename(tmp_path / "moved")
    assert os.path.samefile(at, tmp_path / "moved") and os.path.samefile(disk.own(str(tmp_path / "moved")), at)
    linked.symlink_to(tmp_path / "moved")
    with pytest.raises(OSError, match="linked"):
        disk.own(str(linked))
    monkeypatch.setattr(disk.os, "geteuid", lambda: os.getuid() + 1)
    opened = len(os.listdir("/proc/self/fd"))
    with pytest.raises(Refused, match="moved: another user has put it there"):
        disk.own(str(tmp_path / "moved"))
    assert len(os.listdir("/proc/self/fd")) == opened


def test_a_lock_is_held_until_the_file_is_closed_and_none_is_left_open(tmp_path, monkeypatch):
    asked = calls(monkeypatch, RESTORE, "lock")
    with RESTORE.locked(str(tmp_path / "none")):
        assert asked == []
    (tmp_path / "index.db").touch()
    with RESTORE.locked(str(tmp_path / "index.db")):
        (file, advice), = asked
        assert (file.name, advice) == (f"{tmp_path}/index.db", f"end that first (fuser {tmp_path}/index.db)")
        assert not file.closed
    asked = calls(monkeypatch, RESTORE, "lock", raises(Refused("held")))
    with pytest.raises(Refused, match="held"), RESTORE.locked(str(tmp_path / "index.db")):
        pass
    assert file.closed and asked[0][0].closed


@pytest.mark.parametrize("is_held", [True, False])
def test_an_index_that_answers_has_to_be_that_of_the_database(tmp_path, monkeypatch, is_held):
    (tmp_path / "index.db").touch()
    monkeypatch.setattr(RESTORE, "lock", raises(Refused("held")) if is_held else lambda *_: None)
    with socket.create_server(("127.0.0.1", 0)) as listening:
        url = f"http://127.0.0.1:{listening.getsockname()[1]}"
        if is_held:
            RESTORE.look_at_index(str(tmp_path / "index.db"), url)
        else:
            with pytest.raises(Refused, match=f"{url} answers, but no program has {tmp_path}/index.db open"):
                RESTORE.look_at_index(str(tmp_path / "index.db"), url)
    # nobody listens there any more
    RESTORE.look_at_index(str(tmp_path / "index.db"), url)


def test_a_url_without_a_port_is_that_of_port_80(monkeypatch):
    asked = calls(monkeypatch, RESTORE.socket, "create_connection", raises(ConnectionRefusedError()))
    RESTORE.look_at_index("/none", "http://localhost")
    assert asked == [(("localhost", 80),)]


def test_pypi_is_taken_off_and_put_back_by_who_took_it_off(tmp_path, monkeypatch):
    conf, asked = tmp_path / "x.conf", calls(monkeypatch, RESTORE, "run")
    conf.write_text("on")
    pypi, reloads = RESTORE.Pypi(str(conf)), ("systemctl", "try-reload-or-restart", "nginx.service")
    pypi.put_back()
    assert pypi.text() == RESTORE.PYPI_NONE and not asked
    pypi.take_off()
    assert not conf.exists() and asked == [reloads]
    assert f"mv {conf}.off {conf}" in pypi.text() and "PyPI was taken off" in pypi.text()
    RESTORE.Pypi(str(conf)).put_back()
    assert not conf.exists()
    pypi.put_back()
    assert conf.read_text() == "on" and asked == [reloads] * 2
    conf.unlink()
    RESTORE.Pypi(str(conf)).take_off()
    assert len(asked) == 2


@catches("server/bin/index-restore", "            self.is_moved = True",
         '            self.is_moved = not run("systemctl", "try-reload-or-restart", "nginx.service")')
def test_pypi_is_put_back_also_if_nginx_could_not_be_told_that_it_is_off(tmp_path, monkeypatch):
    """It was taken off by then, so a restore that is refused for this undoes it."""
    conf, fails = tmp_path / "x.conf", [Refused("nginx: status 1")]

    def run(*_):
        if fails:
            raise fails.pop()

    conf.write_text("on")
    monkeypatch.setattr(RESTORE, "run", run)
    pypi = RESTORE.Pypi(str(conf))
    with pytest.raises(Refused):
        pypi.take_off()
    pypi.put_back()
    assert conf.read_text() == "on" and not os.path.exists(pypi.off)


def test_a_cache_is_emptied_of_what_nginx_keeps_and_of_nothing_else(tmp_path):
    cache = tmp_path / "a[b]"
    gone = [f"f/0a/{'1' * 32}", f"0/00/{'a' * 32}.0000000012"]
    stays = [f"g/0a/{'1' * 32}", f"f/0a/{'1' * 31}", f"f/0a/{'1' * 33}", f"f/0a0/{'1' * 32}", f"f/0a/{'1' * 32}.x",
             f"f/0a/{'A' * 32}"]
    for path in gone + stays:
        (cache / path).parent.mkdir(parents=True, exist_ok=True)
        (cache / path).touch()
    RESTORE.empty_cache(str(cache))
    assert [it for it in gone + stays if (cache / it).exists()] == stays


def test_what_nginx_removed_meanwhile_is_passed_over(tmp_path, monkeypatch):
    for digit in "12":
        (tmp_path / "f" / "00").mkdir(parents=True, exist_ok=True)
        (tmp_path / "f" / "00" / (digit * 32)).touch()
    asked = calls(monkeypatch, RESTORE.os, "remove", raises(FileNotFoundError()))
    RESTORE.empty_cache(str(tmp_path))
    assert len(asked) == 2


@contextlib.contextmanager
def server(*statuses):
    """Answers with each of these statuses in turn, the last ones again; tells what it was asked."""
    left, asked = list(statuses), []

    class Answers(http.server.BaseHTTPRequestHandler):
        def do_GET(self):
            asked.append(self.path)
            self.send_response_only(left.pop(0) if len(left) > 1 else left[0])
            self.end_headers()
            self.wfile.write(b' {"state":"free"}\n')

    with http.server.HTTPServer(("127.0.0.1", 0), Answers) as serving:
        threading.Thread(target=serving.serve_forever, kwargs={"poll_interval": 0.01}, daemon=True).start()
        yield f"http://127.0.0.1:{serving.server_port}", asked
        serving.shutdown()


def test_the_first_answer_is_waited_for(monkeypatch):
    with_time(monkeypatch, RESTORE)
    slept = calls(monkeypatch, RESTORE.time, "sleep")
    with server(500, 503, 200) as (url, asked):
        assert RESTORE.first_answer(url, 0) == '{"state":"free"}'
    assert asked == ["/names/x"] * 3 and slept == [(0.2,)] * 2


@catches("server/bin/index-restore", "            if reply.status == 200:", "            if reply.status < 500:")
@pytest.mark.parametrize("status", [301, 401, 404])
def test_what_no_index_answers_is_no_first_answer(monkeypatch, status):
    """Such as another program's at its port, which was faster."""
    with_time(monkeypatch, RESTORE)
    calls(monkeypatch, RESTORE.time, "sleep")
    with server(status, 200) as (url, asked):
        RESTORE.first_answer(url, 0)
    assert len(asked) == 2


@pytest.mark.parametrize("length, patience", [(0, 60), ((1 << 30) - 1, 60), (1 << 30, 90), (5 << 30, 210)])
def test_a_large_database_has_longer_for_its_first_answer(monkeypatch, length, patience):
    now = [1000.0]
    with_time(monkeypatch, RESTORE, monotonic=lambda: now[0])
    with_time(monkeypatch, RESTORE, sleep=lambda seconds: now.__setitem__(0, now[0] + 10))
    given = []

    class Refuses:
        def __init__(self, address, timeout):
            given.append((address, timeout))

        request = staticmethod(raises(ConnectionRefusedError()))
        close = staticmethod(lambda: None)

    monkeypatch.setattr(RESTORE.http.client, "HTTPConnection", Refuses)
    with pytest.raises(Refused, match=f"http://x:1 doesn't answer within {patience} s"):
        RESTORE.first_answer("http://x:1", length)
    assert given == [("x:1", patience)] * (patience // 10)


def test_the_moment_of_a_copy_is_that_of_its_name_or_of_its_last_write(tmp_path):
    assert RESTORE.begun_at("/x/index-20260102T030405Z.db").isoformat() == "2026-01-02T03:04:05+00:00"
    other = tmp_path / "copy.db"
    other.touch()
    os.utime(other, (1_000, 2_000))
    assert RESTORE.begun_at(str(other)) == datetime.datetime.fromtimestamp(2_000, UTC)
