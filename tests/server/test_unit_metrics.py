"""Functions of index-metrics at their boundaries, without a server."""
import contextlib
import http.server
import os
import sqlite3
import subprocess
import threading
import types

import pytest
from support.library import exposition, notes
from support.planted import catches
from support.programs import program_of
from support.unit import calls, ends, with_time

METRICS = program_of("index-metrics")


# all others are whole numbers
PARTS = "index_look_seconds", "index_backup_newest_seconds"


def told(metrics):
    metrics = list(metrics)
    assert all(type(it.value) is int or it.name in PARTS for it in metrics)
    return {(it.name, *(value for _, value in it.labels)) if it.labels else it.name: it.value for it in metrics}


@pytest.mark.parametrize("url, port", [
    ("http://127.0.0.1:8080", 8080), ("https://packages.example", 443), ("http://packages.example", 80),
    ("https://packages.example:8443/x", 8443)])
def test_an_index_is_told_by_its_port_also_if_the_address_has_none(url, port):
    assert METRICS.port_of(url) == port


def test_a_line_has_the_port_and_the_part():
    assert exposition.line(METRICS.Metric("index_up", 1), 8080) == 'index_up{port="8080"} 1\n'
    room = METRICS.Metric("index_room_bytes", 5, (("of", "nginx"),))
    assert exposition.line(room, 8080) == 'index_room_bytes{port="8080",of="nginx"} 5\n'


def test_the_parts_of_a_histogram_are_described_by_its_name_and_those_of_no_histogram_by_their_own():
    known = {"took": ("histogram", "How long."), "of_count": ("gauge", "How many.")}
    parts = [METRICS.Metric("took_bucket", 1, (("le", "+Inf"),)), METRICS.Metric("took_sum", 5),
             METRICS.Metric("took_count", 1), METRICS.Metric("of_count", 7)]
    assert exposition.text_of(parts, 8080, known) == (
        "# HELP took How long.\n# TYPE took histogram\n"
        'took_bucket{port="8080",le="+Inf"} 1\ntook_sum{port="8080"} 5\ntook_count{port="8080"} 1\n'
        '# HELP of_count How many.\n# TYPE of_count gauge\nof_count{port="8080"} 7\n')


def test_the_sizes_of_files_and_the_age_of_the_newest_copy(tmp_path):
    db, backups = tmp_path / "a[b]" / "index.db", tmp_path / "backups"
    for folder in (db.parent, backups, db.parent / "damaged-1", db.parent / "damaged-2"):
        folder.mkdir()
    # a folder on a disk that is off: an alarm asks for its newest copy
    assert told(METRICS.files(str(db), str(tmp_path / "none"))) == {
        "index_damaged_logs": 2, "index_backups": 0, "index_backups_bytes": 0, "index_backup_newest_seconds": 0,
        "index_backup_parts": 0}
    for path, length, at in ((db, 7, 1), (f"{db}-wal", 9, 1), (backups / "index-1.db", 10, 2000),
                             (backups / "index-2.db", 20, 1000), (backups / "index-3.part", 40, 3000),
                             (backups / "x.part", 100, 3000)):
        with open(path, "wb") as made:
            made.write(bytes(length))
        os.utime(path, (at, at))
    assert told(METRICS.files(str(db), str(backups))) == {
        "index_database_bytes": 7, "index_log_bytes": 9, "index_damaged_logs": 2, "index_backups": 2,
        "index_backups_bytes": 170, "index_backup_newest_seconds": 2000, "index_backup_parts": 2}
    for name in os.listdir(backups):
        os.remove(backups / name)
    assert told(METRICS.files(str(db), str(backups)))["index_backup_newest_seconds"] == 0


@catches("server/bin/index-metrics", "if at <= time.time()]", "if at]", case="index-20360101T000000Z.db-9001-1000")
@catches("server/bin/index-metrics", "zip(map(made_at, kept), kept)", "zip(map(os.path.getmtime, kept), kept)",
         case="index-19700101T010000Z.db-9000-3600")
@pytest.mark.parametrize("name, written, at", [
    ("index-19700101T010000Z.db", 9_000, 3_600), ("index-19700101T030000Z.db", 9_000, 9_000),
    ("index-1.db", 9_000, 9_000), ("index-1.db", 9_000.5, 1_000), ("index-20360101T000000Z.db", 9_001, 1_000)])
def test_the_newest_copy_is_of_no_clock_that_was_ahead_and_of_no_later_touch(tmp_path, monkeypatch, name, written, at):
    for path, moment in ((name, written), ("index-19700101T001640Z.db", 1_000)):
        (tmp_path / path).touch()
        os.utime(tmp_path / path, (moment, moment))
    with_time(monkeypatch, METRICS, time=lambda: 9_000)
    assert told(METRICS.files("/none", str(tmp_path)))["index_backup_newest_seconds"] == at


@catches("server/bin/index-metrics", "if not os.path.islink(it)}", "if it}")
def test_a_volume_and_its_copies_count_by_what_they_take_and_a_link_not_at_all(tmp_path):
    db, backups = tmp_path / "index.db", tmp_path / "backups"
    backups.mkdir()
    db.touch()
    assert not [it for it in told(METRICS.files(str(db), str(backups))) if "volume" in it]
    volume, copy = tmp_path / "index.db-volume", backups / "index-20260101T000000Z.volume"
    for path, blocks in ((volume, 3), (copy, 2)):
        with open(path, "wb") as made:
            made.write(bytes(4096 * blocks))
            made.truncate(1 << 40)
    (backups / "index-20260102T000000Z.db").write_bytes(bytes(10))
    os.symlink(copy.name, backups / "index-20260102T000000Z.db-volume")
    taken = [os.stat(it).st_blocks * 512 for it in (volume, copy)]
    found = told(METRICS.files(str(db), str(backups)))
    assert [found["index_volume_bytes"], found["index_volume_copies_bytes"]] == taken and 0 < max(taken) < 1 << 20
    assert found["index_backups_bytes"] == 10 + taken[1]
    os.remove(volume)
    assert told(METRICS.files(str(db), str(backups)))["index_volume_bytes"] == 0


@catches("server/bin/index-metrics", "    if last:\n", "    if not last:\n")
def test_what_index_punch_noted_is_told_and_nothing_if_it_never_ran(tmp_path):
    assert told(METRICS.punches(str(tmp_path))) == {}
    notes.keep_last(str(tmp_path), notes.Last(5.5, 7, 9))
    assert told(METRICS.punches(str(tmp_path))) == {
        "index_punch_newest_seconds": 5, "index_punch_above_bytes": 7, "index_punch_kept_bytes": 9}


@catches("server/lib/package_index/copies.py", "FROM names WHERE state = 1", "FROM names WHERE state > 0")
@catches("server/lib/package_index/copies.py", "?mode=ro&immutable=1", "?mode=ro")
def test_names_and_files_and_quotas_are_those_of_the_newest_copy(tmp_path):
    """Of names that are held: one is prohibited, and one has a quota of nothing."""
    rows = [(1, 3, 80, 100), (1, 2, 79, 100), (1, 0, 0, 0), (2, 0, 0, 0)]
    for name, kept, users in (("index-19700101T010000Z.db", rows, 4), ("index-19700101T000000Z.db", rows[:1], 1)):
        with contextlib.closing(sqlite3.connect(tmp_path / name)) as db:
            db.execute("CREATE TABLE names (state, live, charged, quota)")
            db.execute("CREATE TABLE users (user)")
            db.executemany("INSERT INTO names VALUES (?, ?, ?, ?)", kept)
            db.executemany("INSERT INTO users VALUES (?)", [(it,) for it in range(users)])
            db.commit()
    # nobody waits for a lock, or takes one
    with contextlib.closing(sqlite3.connect(tmp_path / "index-19700101T010000Z.db")) as other:
        other.execute("BEGIN EXCLUSIVE")
        found = told(METRICS.files("/none", str(tmp_path)))
    assert {name: value for name, value in found.items() if "backup" not in name} == {
        "index_damaged_logs": 0, "index_names": 3, "index_files": 5, "index_charged_bytes": 159,
        "index_quota_bytes": 200, "index_quotas_nearly_full": 2, "index_users": 4}
    (tmp_path / "index-19700101T020000Z.db").write_text("not a database")
    assert "index_names" not in told(METRICS.files("/none", str(tmp_path)))


def test_the_bodies_that_nginx_receives_are_summed(tmp_path, monkeypatch):
    for name, length in (("1", 7), ("2", 9)):
        (tmp_path / name).write_bytes(bytes(length))
    monkeypatch.setattr(METRICS.os, "listdir", lambda _: ["1", "gone", "2"])
    assert told(METRICS.bodies(str(tmp_path))) == {"index_bodies_bytes": 16}
    assert told(METRICS.bodies(f"{tmp_path}/none")) == {}


def test_the_room_of_folders_that_are_there(tmp_path, monkeypatch):
    monkeypatch.setattr(METRICS.shutil, "disk_usage", lambda folder: types.SimpleNamespace(free=len(folder)))
    assert told(METRICS.rooms({"a": str(tmp_path), "b": "/none"})) == {("index_room_bytes", "a"): len(str(tmp_path))}


class Answers(http.server.BaseHTTPRequestHandler):
    """Answers 200 to what asks for the standing of a name, and no other."""

    def do_GET(self):
        if self.path == "/cut/names/x":
            self.wfile.write(b"garbage\r\n\r\n")
            return
        self.send_response_only({"/names/x": 200, "/made/names/x": 201}.get(self.path, 404))
        self.end_headers()


def test_whether_an_index_answers_and_how_long_that_took(monkeypatch):
    monkeypatch.setenv("http_proxy", "http://127.0.0.1:9")
    with http.server.HTTPServer(("127.0.0.1", 0), Answers) as serving:
        threading.Thread(target=serving.serve_forever, kwargs={"poll_interval": 0.01}, daemon=True).start()
        url = f"http://127.0.0.1:{serving.server_port}"
        ups = [told(METRICS.looks(f"{url}{path}"))["index_up"] for path in ("", "/made", "/none", "/cut")]
        serving.shutdown()
    assert ups == [1, 0, 0, 0] and told(METRICS.looks(url))["index_up"] == 0
    moments = iter([100.0, 100.123456])
    with_time(monkeypatch, METRICS, monotonic=lambda: next(moments))
    assert told(METRICS.looks("http://127.0.0.1:9"))["index_look_seconds"] == 0.1235


@catches("server/bin/index-metrics", "ANSWERED = 0, 9, 10", "ANSWERED = 0, 3, 10")
@pytest.mark.parametrize("status, begun, ended, found", [
    (0, 10, 9.5, (1, 0.5)), (8, 70, 10, (0, 60)), (9, 10, 9.5, (1, 0.5)), (3, 10, 9.5, (0, 0.5)), (-1, 10, 9, (1, 1)),
    (0, 400, 300.5, None), (0, 400, 299.5, (1, 100.5)), (10, 10, 9.5, (1, 0.5)),
    (0, 29.5, None, None), (0, 30, None, None), (0, 30.5, None, (0, 30.5)), (0, None, None, None)])
def test_the_last_look_of_a_check_of_health(monkeypatch, status, begun, ended, found):
    now = 5_000.0
    with_time(monkeypatch, METRICS, clock_gettime=lambda clock: {METRICS.time.CLOCK_MONOTONIC: now}[clock])
    lines = {"Status": status, **{f"{name}TimestampMonotonic": 0 if at is None else int(1e6 * (now - at))
                                  for name, at in (("Start", begun), ("Exit", ended))}}
    text = "".join(f"ExecMain{name}={value}\n" for name, value in lines.items())
    asked = calls(monkeypatch, METRICS, "said", text)
    seen = told(METRICS.last_look("it.service"))
    hangs = begun == 30.5
    assert seen == ({} if found is None else {"index_up": found[0], "index_look_seconds": found[1],
                                              "index_health_status": -1 if hangs else max(status, 0)})
    names = "ExecMainStatus,ExecMainStartTimestampMonotonic,ExecMainExitTimestampMonotonic"
    assert asked == [("systemctl", "show", f"--property={names}", "it.service")]


def test_a_unit_that_never_ran_tells_nothing(monkeypatch):
    monkeypatch.setattr(METRICS, "said", lambda *_: "")
    assert told(METRICS.last_look("it.service")) == {}


def test_what_a_command_says_or_nothing_if_it_fails(monkeypatch):
    assert METRICS.said("echo", " a ") == "a"
    assert METRICS.said("sh", "-c", "echo a; exit 1") == "" and METRICS.said("/nowhere/x") == ""
    assert METRICS.said("sh", "-c", "echo a >&2") == ""

    def late(words, timeout, **_):
        raise subprocess.TimeoutExpired(words, timeout)

    monkeypatch.setattr(METRICS.subprocess, "run", late)
    assert METRICS.said("sleep") == ""


@pytest.mark.parametrize("said, found", [("7", {"index_restarts": 7}), ("0", {"index_restarts": 0}), ("", {}),
                                         ("n/a", {})])
def test_the_restarts_of_a_unit(monkeypatch, said, found):
    asked = calls(monkeypatch, METRICS, "said", said)
    assert told(METRICS.restarts("it.service")) == found
    assert asked == [("systemctl", "show", "--value", "--property", "NRestarts", "it.service")]


def test_the_end_of_a_certificate_is_read_as_utc(tmp_path, monkeypatch):
    monkeypatch.setenv("TZ", "Asia/Tokyo")
    METRICS.time.tzset()
    conf = tmp_path / "x.conf"
    conf.write_text("# ssl_certificate /no;\nserver {\n  ssl_certificate_key /key;\n  ssl_certificate   /a.pem;\n}\n")
    asked = calls(monkeypatch, METRICS, "said", "notAfter=Jan  2 03:04:05 1970 GMT")
    assert told(METRICS.certificate(str(conf))) == {"index_certificate_end_seconds": 86400 + 3 * 3600 + 4 * 60 + 5}
    assert asked == [("openssl", "x509", "-noout", "-enddate", "-in", "/a.pem")]
    assert told(METRICS.certificate(str(tmp_path / "none"))) == {}
    conf.write_text("server { }\n")
    assert told(METRICS.certificate(str(conf))) == {} and len(asked) == 1
    monkeypatch.delenv("TZ")
    METRICS.time.tzset()


@pytest.mark.told("`index-metrics` can't write")
def test_what_is_asked_by_the_words(tmp_path, monkeypatch, capsys):
    seen = {}
    for name in ("files", "rooms", "last_look", "looks", "restarts", "certificate", "bodies", "changes"):
        monkeypatch.setattr(METRICS, name, lambda *words, name=name: seen.__setitem__(name, words) or [])
    with_time(monkeypatch, METRICS, time=lambda: 1234.9)
    monkeypatch.chdir(tmp_path)
    head = "# HELP index_written_seconds When these lines were written.\n# TYPE index_written_seconds gauge\n"
    said = f'{head}index_written_seconds{{port="8080"}} 1234\n'
    assert ends(METRICS, monkeypatch, capsys, "x.db", "copies") == (0, said, "")
    assert seen == {"files": (f"{tmp_path}/x.db", "copies"), "looks": ("http://127.0.0.1:8080",),
                    "rooms": ({"database": str(tmp_path), "backups": "copies", "nginx": "/var/cache/nginx"},),
                    "restarts": ("index.service",), "certificate": ("/etc/nginx/conf.d/packages.conf",),
                    "bodies": ("/var/cache/nginx/index-bodies",)}
    seen.clear()
    words = ["x.db", "copies", "--health", "h.service", "--url", "http://x", "--unit", "u", "--nginx", "n",
             "--out", "o", "--state", "s"]
    assert ends(METRICS, monkeypatch, capsys, *words) == (0, "", "")
    assert (tmp_path / "o").read_text() == f'{head}index_written_seconds{{port="80"}} 1234\n'
    assert seen["last_look"] == ("h.service",) and "looks" not in seen
    assert (seen["restarts"], seen["certificate"]) == (("u",), ("n",))
    assert seen["changes"] == ("s", "/var/log/package-index/changes.log", "/var/lib/index-uncache/place")
    status, _, err = ends(METRICS, monkeypatch, capsys, "x.db", "copies", "--out", "none/o")
    assert status == 1 and err.startswith("index-metrics: ") and "none/o" in err
