"""index-uncache-follow: what a delete, a ban or a prohibition removes goes out of nginx's cache by itself."""
import json
import os
import sys
from contextlib import contextmanager

import pytest
from support.library import ends, followed
from support.places import BIN, SERVER
from support.planted import catches
from support.programs import program_of
from support.running import run_command
from support.server.caches import make_cache
from support.server.expected import assert_ends, assert_reply
from support.server.gone import ask_and_go, request_and_be_killed
from support.server.manager import reopen
from support.server.pasted import block
from support.server.waits import wait_for
from support.server.watched import unit
from support.serving import Running, accepted, sha256
from support.unit import calls, raises

FOLLOW = program_of("index-uncache-follow")
FILES = "frob-8.0.tar.gz", "frob-8.1+fix.1.tar.gz", "frob-8.2-py3-none-any.whl"


@pytest.fixture
def cached(front):
    """nginx keeps three files of a project."""
    accepted(front.claim("frob"))
    for file in FILES:
        accepted(front.upload("frob", file, b"new"))
        assert_reply(front.ask("GET", address(file)), 200, None, b"new")
    return front


def address(file):
    return f"/files/frob/{file.replace('+', '%2B')}"


@contextmanager
def following(front, again="3600"):
    """What is taken out once more is so after these seconds: a test sees the first time alone."""
    words = ["--again", again, "--place", f"{front.folder}/place", "--log", f"{front.folder}/index-changes.log",
             "--cache", f"{front.folder}/cache/index-files"]
    with open(f"{front.folder}/followed", "a") as said:
        with Running([sys.executable, f"{BIN}/index-uncache-follow", *words], stdout=said, stderr=said) as runs:
            yield runs


def ban(front, file):
    accepted(front.request(do="ban_file", file=file))


def is_gone(front, file):
    return front.ask("GET", address(file))[0] == 404


def wait_until_gone(front, *files):
    assert wait_for(lambda: all(is_gone(front, file) for file in files))


@catches("server/bin/index-uncache-follow", "            take_out(removed, words.cache)", "            pass")
@catches("server/bin/index-uncache-follow", 'if said["method"] == "DELETE":', 'if said["method"] == "PATCH":',
         also=["test_a_line_says_what_is_gone"])
def test_a_ban_a_delete_and_a_prohibition_take_files_out(cached):
    with following(cached):
        ban(cached, FILES[0])
        wait_until_gone(cached, FILES[0])
        accepted(cached.ask("DELETE", address(FILES[1]), X_Index_Token="office", X_Index_SHA256=sha256(b"new")))
        wait_until_gone(cached, FILES[1])
        assert not is_gone(cached, FILES[2])
        accepted(cached.request(do="prohibit", name="frob"))
        wait_until_gone(cached, FILES[2])


def test_what_a_client_asked_for_that_is_gone_is_taken_out_too(cached, kept_index):
    with following(cached):
        ask_and_go(cached, kept_index, "DELETE", address(FILES[0]))
        wait_until_gone(cached, FILES[0])
        assert not is_gone(cached, FILES[1])
        ask_and_go(cached, kept_index, "POST", "/requests", b'{"do":"ban_file","file":"%s"}' % FILES[1].encode())
        wait_until_gone(cached, FILES[1])


@catches("server/bin/index-uncache-follow",
         '    return status == 200 or isinstance(status, int) and status >= 500 and said.get("reached") is True',
         "    return status == 200", also=["test_a_change_without_an_answer_is_taken_out_if_an_index_got_it"])
def test_what_an_index_got_that_was_killed_is_taken_out_too(cached, kept_index):
    """nginx can't know whether the index made the change. One that no index got takes nothing out."""
    lines = len(cached.changes())
    with kept_index.away():
        assert cached.request(do="ban_file", file=FILES[1])[0] >= 500
    kept_index.listens.wait(timeout=60)
    assert request_and_be_killed(cached, kept_index, do="ban_file", file=FILES[0]) >= 500
    assert wait_for(lambda: [it["reached"] for it in cached.changes()[lines:]] == [False, True])
    with following(cached):
        assert wait_for(lambda: FILES[0] in said_by_follower(cached))
        assert FILES[1] not in said_by_follower(cached)


def said_by_follower(front):
    with open(f"{front.folder}/followed") as said:
        return said.read()


def test_without_it_nginx_keeps_what_is_banned(cached):
    ban(cached, FILES[0])
    assert not is_gone(cached, FILES[0])


@catches("server/lib/package_index/followed.py", "            log.seek(place.read)",
         "            log.seek(0, os.SEEK_END)", also=["test_a_place_that_is_gone_or_spoilt_has_all_logs_read"])
def test_what_came_while_it_was_killed_is_taken_out_too_also_over_a_rotation(cached):
    log = f"{cached.folder}/index-changes.log"
    with following(cached, "0") as runs:
        ban(cached, FILES[0])
        wait_until_gone(cached, FILES[0])
        end = os.stat(log).st_ino, os.path.getsize(log)
        assert wait_for(lambda: (followed.place_in(f"{cached.folder}/place", followed.Place) or ())[:2] == end)
        runs.process.kill()
        runs.process.wait()
    ban(cached, FILES[1])
    os.rename(log, f"{log}.1")
    reopen(cached.process.pid, f"{log}.1")
    ban(cached, FILES[2])
    assert not is_gone(cached, FILES[1]) and not is_gone(cached, FILES[2])
    with following(cached):
        wait_until_gone(cached, *FILES[1:])


@catches("server/lib/package_index/followed.py", "is_last = is_followed_by(path, log)", "is_last = False")
def test_a_rotation_is_followed_and_a_line_that_nginx_still_writes_into_the_old_log_is_read(cached):
    log = f"{cached.folder}/index-changes.log"
    with following(cached):
        assert wait_for(lambda: os.path.exists(f"{cached.folder}/place"))
        os.rename(log, f"{log}.1")
        with open(log, "w"):
            # logrotate makes the new one, and nginx writes into the old one until it is told
            pass
        ban(cached, FILES[0])
        wait_until_gone(cached, FILES[0])
        reopen(cached.process.pid, f"{log}.1")
        ban(cached, FILES[1])
        wait_until_gone(cached, FILES[1])


@catches("server/lib/package_index/followed.py", "!= os.fstat(log.fileno()).st_ino and newer.st_size > 0",
         "!= os.fstat(log.fileno()).st_ino")
def test_an_old_log_is_read_until_another_is_written_into(tmp_path):
    log = tmp_path / "log"
    log.write_text("1\n")
    found = followed.lines_from(str(log), None)
    with open(log, "a", encoding="ascii") as old:
        def after(text=""):
            old.write(text)
            old.flush()
            return [next(found)[0].strip() for _ in range(2 if text else 1)]

        assert after() == ["1"] and after() == [""]
        log.rename(tmp_path / "log.1")
        assert after() == [""] and after("2\n") == ["2", ""]
        log.touch()
        assert after() == [""] and after("3\n") == ["3", ""]
        log.write_text("4\n")
        assert after() == [""] and after() == ["4"]
    found.close()


@catches("server/bin/index-uncache-follow", "            take_out(again.popleft().words, words.cache)",
         "            again.popleft()")
def test_the_second_time_is_for_a_reply_that_was_under_way(monkeypatch, tmp_path):
    taken, now = [], [100.0]
    line = json.dumps({"status": 200, "method": "DELETE", "path": "/files/a/a-1.zip", "body": ""})

    def lines(*_):
        yield line, followed.Place(1, 9, "0")
        for moment in (104.9, 105.0, 106.0):
            now[0] = moment
            yield "", followed.Place(1, 9, "0")

    monkeypatch.setattr(FOLLOW, "lines_from", lines)
    monkeypatch.setattr(FOLLOW, "take_out", lambda words, cache: taken.append((now[0], words)))
    monkeypatch.setattr(FOLLOW.time, "monotonic", lambda: now[0])
    kept = []
    monkeypatch.setattr(FOLLOW, "keep_place", lambda path, place: kept.append((now[0], place)))
    FOLLOW.follow(FOLLOW.argparse.Namespace(place=f"{tmp_path}/place", log="x", cache="y", again=5, front=None))
    assert taken == [(100.0, ["a", "a-1.zip"]), (105.0, ["a", "a-1.zip"])] and kept == [(105.0, (1, 9, "0"))]
    assert (tmp_path / "removed").read_text() == f"{line}\n"


@catches("server/bin/index-uncache-follow", "safe = again[0].before if again else place",
         "safe = None if again else place")
def test_its_place_moves_on_while_files_are_still_to_be_taken_out_once_more(monkeypatch, tmp_path):
    """So one that removes for hours does not seem to hang; and a run that follows takes out again what this did not."""
    line = json.dumps({"status": 200, "method": "DELETE", "path": "/files/a/a-1.zip", "body": ""})
    now, kept = [100.0], []

    def lines(*_):
        for at in range(1, 5):
            yield line, followed.Place(1, at, "0")
            yield "", followed.Place(1, at, "0")
            now[0] += 3

    monkeypatch.setattr(FOLLOW, "lines_from", lines)
    monkeypatch.setattr(FOLLOW, "take_out", lambda *_: None)
    monkeypatch.setattr(FOLLOW.time, "monotonic", lambda: now[0])
    monkeypatch.setattr(FOLLOW, "keep_place", lambda path, place: kept.append((now[0], place.read)))
    FOLLOW.follow(FOLLOW.argparse.Namespace(place=f"{tmp_path}/place", log="x", cache="y", again=5, front=None))
    # at 106 that of the line of 100 was taken out twice, and that of 103 was not
    assert kept == [(106.0, 1), (109.0, 2)]


@catches("server/bin/index-uncache-follow", "except OSError as end:", "except AssertionError as end:")
@catches("server/bin/index-uncache-follow", "raise Refused(fault)", "pass")
def test_a_full_disk_keeps_nothing_in_the_cache_and_is_told_before_the_place_is_kept(monkeypatch, tmp_path):
    lines = [json.dumps({"status": 200, "method": "DELETE", "path": f"/files/a/a-{it}.zip"}) for it in "123"]
    read = [(line, followed.Place(1, 9, "0")) for line in [*lines, "", ""]]
    monkeypatch.setattr(FOLLOW, "lines_from", lambda *_: iter(read))
    taken = calls(monkeypatch, FOLLOW, "take_out")
    kept = calls(monkeypatch, FOLLOW, "keep_place")
    written = calls(monkeypatch, FOLLOW.fronts, "add_line", raises(OSError(28, "no room", "/removed")))
    with pytest.raises(ends.Refused, match="no room: '/removed'"):
        FOLLOW.follow(FOLLOW.argparse.Namespace(place=f"{tmp_path}/place", log="x", cache="y", again=5, front=None))
    assert [words[1] for words, _ in taken] == ["a-1.zip", "a-2.zip", "a-3.zip"] and not kept
    assert written == [(f"{tmp_path}/removed", lines[0])]


@catches("server/bin/index-uncache-follow", 'json.loads(line)["method"] != "DELETE"',
         'json.loads(line)["method"] == "DELETE"')
@catches("server/bin/index-uncache-follow",
         """            put_whole(beside(words.place, "banned"), f"{time.time()}\\n")""", "            pass")
@pytest.mark.parametrize("front", [None, "192.0.2.1"])
@pytest.mark.parametrize("change, is_banned", [
    ({"method": "POST", "path": "/requests", "body": '{"do":"ban_file","file":"frob-1.zip"}'}, True),
    ({"method": "POST", "path": "/requests", "body": '{"do":"prohibit","name":"frob"}'}, True),
    ({"method": "DELETE", "path": "/files/frob/frob-1.zip", "body": ""}, False),
    ({"method": "POST", "path": "/requests", "body": '{"do":"claim","name":"frob"}'}, False)])
def test_each_ban_and_prohibition_is_marked_for_index_punch_and_no_delete(monkeypatch, tmp_path, change, is_banned,
                                                                          front):
    """Also one through another nginx, beside the place of that run. A second one writes another file."""
    line, found = json.dumps({"status": 200, **change}), []
    for name in ("lines_from", "lines_to_read"):
        monkeypatch.setattr(FOLLOW, name, lambda *_: iter([(line, followed.Place(1, 9, "0"))]))
    monkeypatch.setattr(FOLLOW, "take_out", lambda *_: found.append(
        os.path.exists(tmp_path / "banned") and os.stat(tmp_path / "banned").st_mtime_ns))
    for _ in range(2):
        FOLLOW.follow(FOLLOW.argparse.Namespace(place=f"{tmp_path}/place", log="x", cache="y", again=5, front=front))
    assert os.path.exists(tmp_path / "banned") == is_banned
    assert not is_banned or len(found) == 2 and 0 < found[0] < found[1]


@pytest.mark.parametrize("status, method, path, body, words", [
    (200, "DELETE", "/files/frob/frob-1%2B2.zip", "", ["frob", "frob-1+2.zip"]),
    (404, "DELETE", "/files/frob/frob-1.zip", "", []),
    (200, "POST", "/requests", '{"do":"ban_file","file":"frob-x-1.0.tar.gz"}', ["frob-x", "frob-x-1.0.tar.gz"]),
    (200, "POST", "/requests", '{"do":"ban_file","file":"frob_x-1-py3-none-any.whl"}',
     ["frob_x", "frob_x-1-py3-none-any.whl"]),
    (403, "POST", "/requests", '{"do":"ban_file","file":"frob-1.0.tar.gz"}', []),
    (200, "POST", "/requests", '{"do":"prohibit","name":"frob"}', ["frob"]),
    (200, "POST", "/requests", '{"do":"claim","name":"frob"}', []), (200, "POST", "/requests", '[]', []),
    (201, "PUT", "/files/frob/frob-1.zip", "", []), (200, "POST", "/legacy/", "", [])])
def test_a_line_says_what_is_gone(status, method, path, body, words):
    line = json.dumps({"status": status, "method": method, "path": path, "body": body})
    assert FOLLOW.removed_by(line) == words
    assert FOLLOW.removed_by(line[:-1]) == [] == FOLLOW.removed_by("7")


@pytest.mark.parametrize("status, more, is_gone", [
    (502, {"reached": True}, True), (504, {"reached": True}, True), (500, {"reached": True}, True),
    (502, {"reached": False}, False), (502, {}, False), (499, {"reached": True}, False),
    (404, {"reached": True}, False), ("502", {"reached": True}, False)])
def test_a_change_without_an_answer_is_taken_out_if_an_index_got_it(status, more, is_gone):
    """The index may have made it, and a file that is still there is fetched again. Nobody gets files out of the cache
    by changes that no index gets, while it is off."""
    line = json.dumps({"status": status, "method": "DELETE", "path": "/files/a/a-1.zip", "body": "", **more})
    assert FOLLOW.removed_by(line) == (["a", "a-1.zip"] if is_gone else [])


@catches("server/bin/index-uncache-follow",
         "    return words if all(isinstance(it, str) and PLAIN.fullmatch(it) for it in words) else []",
         "    return words", also=["test_a_path_of_no_file_takes_nothing_out"])
@catches("server/bin/index-uncache-follow", "    except (KeyError, TypeError, AttributeError, RecursionError):",
         "    except (KeyError, TypeError, AttributeError):")
@pytest.mark.parametrize("body", [
    '{"do":"prohibit","name":"a/b"}', '{"do":"prohibit","name":7}', '{"do":"prohibit","name":["a"]}',
    r'{"do":"prohibit","name":"\u0000"}', r'{"do":"ban_file","file":"a\ud800-1.tar.gz"}',
    pytest.param("[" * 65_536, id="deep"), '{"do":"ban_file","file":"a/b-1.tar.gz"}', '{"do":"prohibit","name":""}',
    "7", '{"do":"prohibit","name":null}', '{"do":"ban_file","file":7}'])
def test_a_body_that_is_no_request_takes_nothing_out_and_ends_nothing(body):
    """Anybody may send one while the index ends, which is a line that the index got and did not answer."""
    line = json.dumps({"status": 502, "reached": True, "method": "POST", "path": "/requests", "body": body})
    assert FOLLOW.removed_by(line) == []


@pytest.mark.parametrize("path", ["/files/a%2Fb/a-1.zip", "/files/a/%00", "/a%0A/b", "/"])
def test_a_path_of_no_file_takes_nothing_out(path):
    line = json.dumps({"status": 502, "reached": True, "method": "DELETE", "path": path, "body": ""})
    assert FOLLOW.removed_by(line) == []


@catches("server/bin/index-uncache-follow", "{line.strip()[:MOST_SHOWN]}", "{line.strip()}")
def test_a_line_that_can_not_be_read_is_told_without_a_body(capsys):
    """It may have said what is to go out, and has the digest of a token."""
    line = json.dumps({"at": "x", "status": 200, "method": "POST", "path": "/requests" + "x" * 99, "body": "digest"})
    assert FOLLOW.removed_by(line[:-1]) == [] and FOLLOW.removed_by("\n") == []
    assert capsys.readouterr().err == f"index-uncache-follow: passed over, since it can't be read: {line[:120]}\n"


@catches("server/bin/index-uncache-follow", "    if ended.returncode > 1:", "    if ended.returncode > 2:")
@pytest.mark.told("`index-uncache-follow` can't read or write")
def test_a_file_that_can_not_be_taken_out_is_told_and_tried_again(tmp_path):
    """As one of another user: the place stays before the line."""
    make_cache(str(tmp_path / "cache"), [("a", "b")])
    log = tmp_path / "log"
    log.write_text(json.dumps({"status": 200, "method": "DELETE", "path": "/files/a/b", "body": ""}) + "\n")
    words = ["--log", log, "--cache", tmp_path / "cache", "--place", tmp_path / "place"]
    script = tmp_path / "bin" / "index-uncache"
    script.parent.mkdir()
    os.symlink(f"{SERVER}/lib", tmp_path / "lib")
    with open(f"{BIN}/index-uncache-follow") as kept:
        (tmp_path / "bin" / "follow").write_text(kept.read())
    script.write_text("import sys\nprint('no right to remove it')\nsys.exit(2)\n")
    ended = run_command([sys.executable, "-B", f"{tmp_path}/bin/follow", *map(str, words)])
    assert_ends(ended, 1, "index-uncache a b: no right to remove it")
    assert not (tmp_path / "place").exists()


@catches("server/bin/index-uncache-follow", "or len(words) == 2 and not is_there(", "or not words and not is_there(")
def test_a_file_that_nginx_does_not_keep_is_not_looked_for(tmp_path, monkeypatch):
    """It may keep many, and that takes seconds."""
    cache = make_cache(str(tmp_path / "cache"), [("frob", "frob-1.zip")])
    monkeypatch.setattr(FOLLOW.subprocess, "run", raises(AssertionError("looked for")))
    FOLLOW.take_out(["frob", "frob-2.zip"], cache)
    for words in (["Frob", "frob-1.zip"], ["frob"]):
        with pytest.raises(AssertionError, match="looked for"):
            FOLLOW.take_out(words, cache)


def test_a_place_that_is_gone_or_spoilt_has_all_logs_read(tmp_path):
    log, oldest = tmp_path / "log", tmp_path / "log.2"
    oldest.write_text("1\n2\n")
    (tmp_path / "log.1").write_text("x\n")
    log.write_text("3\npart")
    os.utime(oldest, (1, 1))
    os.utime(tmp_path / "log.1", (2, 2))
    inode = os.stat(oldest).st_ino
    end = followed.Place(os.stat(log).st_ino, 2, sha256(b"3\n"))
    for place, lines in ((None, "12x3"), (end._replace(read=0), "12x3"), (followed.Place(inode, 9, "0"), "12x3"),
                         (followed.Place(inode, 2, sha256(b"1\n")), "2x3"), (end, "")):
        found, seen = followed.lines_from(str(log), place), ""
        for line, at in found:
            if not line and at == end:
                break
            seen += line.strip()
        found.close()
        assert seen == lines
    (tmp_path / "place").write_text("x")
    for name in ("place", "none"):
        assert followed.place_in(f"{tmp_path}/{name}", followed.Place) is None
    followed.keep_place(f"{tmp_path}/place", at)
    assert followed.place_in(f"{tmp_path}/place", followed.Place) == at


def test_the_unit_keeps_its_place_and_tells():
    text = unit("index-uncache-follow.service")
    for line in ("StateDirectory=index-uncache", "Restart=on-failure", "StartLimitBurst=3",
                 "ReadWritePaths=-/var/cache/nginx"):
        assert f"\n{line}\n" in text
    with open(f"{BIN}/index-uncache-follow") as kept:
        assert 'default="/var/lib/index-uncache/place"' in kept.read()
    with open(f"{SERVER}/debian/package-index.prerm") as kept:
        assert " index-uncache-follow.service " in kept.read()


def test_an_installation_turns_it_on():
    assert "index-uncache-follow.service" in block("systemctl enable --now index.service").split()
