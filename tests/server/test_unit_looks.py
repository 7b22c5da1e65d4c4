"""What looks one after the other tell, at the boundaries of each rule."""
import datetime
import json
import os

import pytest
from support.library import followed, looks, notes, tallies
from support.planted import catches

NOW, HOUR, DAY, GIB = 2_000_000_000.0, 3600, 86400, 1 << 30


def look(hours_ago=0.0, room=None, boot="a", restarts=None, is_set=0.0):
    """A look so long ago by a clock that was ahead by `is_set` then."""
    return looks.Look(NOW - hours_ago * HOUR + is_set, boot, 5e6 - hours_ago * HOUR, room or {}, restarts or {})


@catches("server/lib/package_index/looks.py", "used, passed = then.room[folder] - free, now.at - then.at",
         "used, passed = free - then.room[folder], now.at - then.at",
         also=["server/test_alarms_by_rate.py::test_a_disk_that_fills_is_told_once_a_day"])
@pytest.mark.parametrize("hours, before, free, told", [
    (24, 8, 7, []), (24, 8, 6.9, [6.3]),
    (24, 8, 8, []), (24, 8, 9, []), (24.1, 8, 4, []), (6, 8, 7.5, [3.75]), (5.9, 8, 4, []), (24, 8, 0, [0.0]),
    # in 8.5 times 20 hours
    (20, 9.5, 8.5, [])])
def test_a_disk_is_told_that_is_full_within_seven_days_at_the_rate_of_the_last(hours, before, free, told):
    seen = list(looks.disks([look(hours, {"/a": int(before * GIB)}), look(0, {"/a": int(free * GIB), "/b": 1})]))
    assert len(seen) == len(told)
    for text, days in zip(seen, told):
        assert text.startswith("the disk of /a is full in ") and abs(float(text.split()[7]) - days) < 0.06, text
        assert text.endswith(f"at the rate of the last {hours:.0f} hours")


@catches("server/lib/package_index/looks.py", "then = next((it for it in looks if",
         "then = next((it for it in reversed(looks) if")
def test_a_disk_is_measured_from_the_earliest_look_of_the_last_day_that_has_it():
    seen = [look(30, {"/a": 9 * GIB}), look(20, {"/b": 1}), look(10, {"/a": 8 * GIB}), look(1, {"/a": 2 * GIB}),
            look(0, {"/a": 6 * GIB})]
    assert list(looks.disks(seen)) == ["the disk of /a is full in 1.2 days, at the rate of the last 10 hours"]


@catches("server/lib/package_index/looks.py", "ahead = (now.at - before.at) - (now.up - before.up)",
         "ahead = (now.at - before.at) - (now.at - before.at)",
         also=["server/test_alarms_by_rate.py::test_a_clock_that_was_set_is_told"])
@pytest.mark.parametrize("is_set, told", [
    (0, []), (60, []), (61, ["the clock went back by 61 seconds: timedatectl"]), (-60, []),
    (-7200, ["the clock went ahead by 7200 seconds: timedatectl"])])
def test_a_clock_that_was_set_is_told(is_set, told):
    assert list(looks.clock(look(1, is_set=is_set), look())) == told


@catches("server/lib/package_index/looks.py", "ahead = min(0.0, now.at - before.at)", "ahead = now.at - before.at")
@pytest.mark.parametrize("hours, told", [
    (500, []), (0, []), (-0.01, []), (-1, ["the clock went back by 3600 seconds: timedatectl"])])
def test_after_a_start_only_a_clock_that_went_back_is_seen(hours, told):
    assert list(looks.clock(look(hours, boot="b"), look())) == told


@catches("server/lib/package_index/looks.py", "RESTARTS = 3", "RESTARTS = 30000",
         also=["server/test_alarms_by_rate.py::test_an_index_that_is_started_again_and_again_is_told"])
def test_a_unit_that_is_started_again_and_again_is_told():
    before = look(0.5, restarts={"index.service": 4, "index@1.service": 4, "index@2.service": 9})
    now = look(0, restarts={"index.service": 7, "index@1.service": 8, "index@2.service": 0, "index@3.service": 99})
    assert list(looks.restarted(before, now)) == [
        "index@1.service was started again 4 times in 30 minutes, as if another program had its port: "
        "journalctl -u index@1.service"]
    assert list(looks.restarted(before, now._replace(boot="b"))) == []


def copy(folder, hours_ago, written=None):
    moment = datetime.datetime.fromtimestamp(NOW - hours_ago * HOUR, datetime.timezone.utc)
    path = folder / f"index-{moment:%Y%m%dT%H%M%SZ}.db"
    path.touch()
    at = NOW - (hours_ago if written is None else written) * HOUR
    os.utime(path, (at, at))
    return path


def late(folder, begun=1000.0, units=()):
    return [text.partition(":")[0] for text in looks.backups(str(folder), units, NOW, NOW - begun * HOUR)]


@catches("server/lib/package_index/looks.py", "return min(named.timestamp(), written) if named else written",
         "return named.timestamp() if named else written",
         also=["server/test_alarms_by_rate.py::test_a_late_backup_is_told"])
@catches("server/lib/package_index/looks.py", "max((it for it in moments if it <= now), default=begun)",
         "max(moments, default=begun)")
def test_a_backup_is_late_by_the_earlier_of_its_name_and_its_file(tmp_path):
    copy(tmp_path, 26)
    assert late(tmp_path) == []
    for hours, written in ((26.01, 1), (1, 27), (-1, -1), (-1, 0.5)):
        for old in tmp_path.iterdir():
            old.unlink()
        copy(tmp_path, 40)
        copy(tmp_path, hours, written)
        told = {26.01: 26, 1: 27}.get(hours, 40)
        # a name of a later time, whose file was written in time, is a copy of then
        assert late(tmp_path) == ([] if (hours, written) == (-1, 0.5) else
                                  [f"no backup was made in {tmp_path} for {told} hours"])


def test_an_index_that_is_new_has_a_day_for_its_first_backup(tmp_path):
    (tmp_path / "index-x.db").touch()
    assert late(tmp_path, 26) == [] and late(tmp_path / "none", 26) == []
    assert late(tmp_path, 26.1) == [f"no backup was made in {tmp_path} for 26 hours"]
    assert late(tmp_path / "none", 30) == [f"no backup was made in {tmp_path}/none for 30 hours"]


def punched(folder, hours=0.0, kept=0, own=""):
    """Notes of a run so long ago, of an index with a volume."""
    for it in ("var", "notes"):
        (folder / it / own).mkdir(parents=True, exist_ok=True)
    (folder / "var" / own / "index.db-volume").touch()
    notes.keep_last(str(folder / "notes" / own), notes.Last(NOW - hours * HOUR, 5, kept))


def of_punches(folder, banned=None, begun=200.0):
    """What is told, if something was banned so many hours ago."""
    if banned is not None:
        (folder / "banned").touch()
        os.utime(folder / "banned", (NOW - banned * HOUR,) * 2)
    marks = [f"{folder}/none", f"{folder}/banned"]
    return list(looks.punches(f"{folder}/var/index.db", f"{folder}/notes", marks, NOW, NOW - begun * HOUR))


@catches("server/lib/package_index/looks.py", "        if began < banned < now - BANNED:",
         "        if banned < now - BANNED:")
@catches("server/lib/package_index/looks.py", "PUNCH_HOURS, BANNED = 50, 3600", "PUNCH_HOURS, BANNED = 51, 3700",
         case="50.1-None-0-hours", also=["test_a_volume_is_punched_each_night_and_after_a_ban[2-1.01-0-banned]"])
@pytest.mark.parametrize("hours, banned, kept, said", [
    (49.9, None, 0, None), (50.1, None, 0, "hours"), (2, 1.01, 0, "banned"), (2, 0.99, 0, None), (1, 3, 0, None),
    (1, None, 4096, "holes"), (60, 2, 4096, "banned"), (-1, None, 0, "200 hours")])
def test_a_volume_is_punched_each_night_and_after_a_ban(tmp_path, hours, banned, kept, said):
    punched(tmp_path, hours, kept)
    text = {None: [], "hours": ["var/index.db-volume was not punched for 50 hours: systemctl status 'index-punch*'"],
            "200 hours": ["var/index.db-volume was not punched for 200 hours: systemctl status 'index-punch*'"],
            "banned": [f"what was banned {60 * (banned or 0):.0f} minutes ago is still in "],
            "holes": ["4096 bytes of deleted files stay in "]}[said]
    found = of_punches(tmp_path, banned)
    assert len(found) == len(text) and all(it in each for it, each in zip(text, found)), found


@catches("server/lib/package_index/looks.py", "        if not os.path.exists(volume):", "        if not volume:")
def test_without_a_volume_nothing_is_punched_and_a_new_one_has_two_nights(tmp_path):
    punched(tmp_path, 90)
    (tmp_path / "notes/last").unlink()
    assert len(of_punches(tmp_path, begun=51)) == 1 and of_punches(tmp_path, begun=49) == []
    (tmp_path / "var/index.db-volume").unlink()
    assert of_punches(tmp_path, 5) == [] == list(looks.punches("/none/index.db", "/none", [], NOW, 0))


@catches("server/lib/package_index/looks.py", 'for own in ("", *ports):', 'for own in ("", *ports[1:]):')
def test_of_several_indexes_each_volume_is_punched(tmp_path):
    punched(tmp_path, 1)
    for port, hours in (("8081", 60), ("8082", 1), ("8083", 70)):
        punched(tmp_path, hours, own=port)
    assert [it.partition(" was")[0] for it in of_punches(tmp_path)] == [
        f"{tmp_path}/var/{port}/index.db-volume" for port in ("8081", "8083")]


@catches("server/lib/package_index/looks.py", 'return own + [f"{backups}/{it}" for it in sorted(there | ports)]',
         'return own + [f"{backups}/{it}" for it in sorted(there | ports)][:1]')
def test_of_several_indexes_each_has_its_own_backups(tmp_path, monkeypatch):
    for port, hours in (("8080", 2), ("8082", 27), ("8091", 30), ("8083", 28)):
        (tmp_path / port).mkdir()
        copy(tmp_path / port, hours)
    # a system may list them in any order
    listed = os.listdir
    monkeypatch.setattr(looks.os, "listdir", lambda it: sorted(listed(it), key=lambda name: name[::-1]))
    assert late(tmp_path) == [f"no backup was made in {tmp_path}/{port} for {hours} hours"
                              for port, hours in ((8082, 27), (8083, 28), (8091, 30))]


@catches("server/lib/package_index/looks.py", 'for it in units if "@" in it}', "for it in ()}")
@catches("server/lib/package_index/looks.py",
         '    own = [] if there or ports and "index.service" not in units else [backups]',
         "    own = [] if there or ports else [backups]",
         also=["server/test_alarms_by_rate.py::test_a_late_backup_is_told"])
def test_an_index_of_several_whose_backups_never_began_is_told(tmp_path):
    """The first backup of each makes its folder."""
    units = {"index@8081.service": 0, "index@8080.service": 3, "index-legacy-upload.service": 0}
    told = [f"no backup was made in {tmp_path}/{port} for 30 hours" for port in (8080, 8081)]
    assert late(tmp_path, 30, units) == told
    # beside an index that has the whole folder
    assert late(tmp_path, 30, {**units, "index.service": 0})[1:] == told
    (tmp_path / "8080").mkdir()
    copy(tmp_path / "8080", 2)
    assert late(tmp_path, 30, units) == told[1:] and late(tmp_path, 25, units) == []


def test_the_log_of_a_copy_that_is_under_way_is_no_backup(tmp_path):
    os.rename(copy(tmp_path, 1), f"{copy(tmp_path, 30)}-wal")
    assert late(tmp_path) == [f"no backup was made in {tmp_path} for 30 hours"]


def log(folder, *rows):
    """A log of changes: each row so many lines of this status, so many hours ago."""
    path = folder / "changes.log"
    lines = []
    for number, status, hours in rows:
        at = datetime.datetime.fromtimestamp(NOW - hours * HOUR, datetime.timezone(datetime.timedelta(hours=2)))
        lines += [json.dumps({"at": at.isoformat(timespec="seconds"), "status": status})] * number
    path.write_text("\n".join(["x", "[]", '{"at":"x","status":401}', *lines, ""]))
    os.utime(path, (NOW, NOW))
    return str(path)


def tally(path):
    return tallies.read_on(path, tallies.Tally(None, {}), NOW)


@catches("server/lib/package_index/tallies.py", "return NO_TOKEN if status == 401 else REFUSED",
         "return None if status == 401 else REFUSED",
         also=["server/test_alarms_by_rate.py::test_a_rise_of_wrong_tokens_is_told"])
@catches("server/lib/package_index/looks.py", "and last > TIMES * before / 23", "and last > 0")
@pytest.mark.parametrize("rows, told", [
    ([(99, 401, 0.5)], []), ([(100, 401, 0.5)], ["100 changes were answered by 401"]),
    ([(100, 401, 0.5), (230, 401, 5)], []), ([(101, 401, 0.5), (230, 401, 5)], ["101 changes were answered by 401"]),
    ([(100, 401, 0.5), (9000, 401, 25)], ["100 changes were answered by 401"]), ([(100, 401, 1.1)], []),
    ([(100, 200, 0.5), (100, 500, 0.5), (100, 401, -1)], []), ([(60, 401, 0.5), (60, 403, 0.5)], []),
    ([(60, 404, 0.5), (60, 499, 0.5)], ["120 changes were answered by another refusal"])])
def test_a_rise_of_refused_changes_is_told(tmp_path, rows, told):
    seen = list(looks.refused(tally(log(tmp_path, *rows)), NOW))
    assert len(seen) == len(told) and all(text.startswith(start) for text, start in zip(seen, told)), seen


@catches("server/lib/package_index/tallies.py", "return FAILED if status == 500 else None",
         "return FAILED if status == 599 else None",
         also=["server/test_alarms_by_rate.py::test_a_failed_change_is_told_once_and_that_it_is_over"])
@pytest.mark.parametrize("rows, told", [
    ([(1, 500, 0.5)], ["1 change failed (500)"]), ([(3, 500, 0.99), (9, 500, 1.1)], ["3 changes failed (500)"]),
    ([(9, 500, 1.1), (9, 500, -1), (9, 503, 0.5), (9, 502, 0.5), (9, 404, 0.5)], [])])
def test_each_change_that_failed_is_told(tmp_path, rows, told):
    seen = list(looks.failed(tally(log(tmp_path, *rows)), NOW))
    assert len(seen) == len(told) and all(text.startswith(start) for text, start in zip(seen, told)), seen


def test_a_log_that_is_not_there_or_was_written_days_ago_tells_nothing(tmp_path):
    path = log(tmp_path, (500, 401, 0.5))
    assert not tally(f"{tmp_path}/none").minutes and len(list(looks.refused(tally(path), NOW))) == 1
    os.utime(path, (NOW - DAY - 1, NOW - DAY - 1))
    assert not tally(path).minutes


def test_a_log_that_nginx_does_not_write_is_told(tmp_path):
    """The database is written by changes, each of which nginx logs, and as the index starts."""
    db, log = tmp_path / "index.db", tmp_path / "changes.log"
    for path, at in ((db, NOW), (tmp_path / "index.db-wal", NOW + 700), (log, NOW)):
        path.write_text("")
        os.utime(path, (at, at))
    assert [*looks.unlogged(str(db), str(log), NOW + 600)] == [] == [*looks.unlogged(str(db), str(log), 0)]
    found, = looks.unlogged(str(db), str(log), NOW - 5)
    assert found.startswith(f"{db} was changed 12 minutes after the last line of {log}: nginx does not write it, or ")
    # one that was rotated away may be written on for a while
    (tmp_path / "changes.log.1").write_text("")
    os.utime(tmp_path / "changes.log.1", (NOW + 580, NOW + 580))
    assert [*looks.unlogged(str(db), str(log), NOW - 5)] == []


@pytest.mark.parametrize("read, told", [(0, 1), (1, 0), (2, 0)])
def test_a_follower_that_stays_behind_is_told(tmp_path, read, told):
    """Three lines, the last of which are of three minutes ago and of now: up to where it has read."""
    log, place = tmp_path / "changes.log", tmp_path / "place"
    at = [datetime.datetime.fromtimestamp(it, datetime.timezone.utc).isoformat() for it in (NOW - 900, NOW - 180, NOW)]
    lines = [json.dumps({"at": it}) + "\n" for it in at]
    log.write_text("".join(lines))
    with open(log, "rb") as opened:
        opened.seek(sum(map(len, lines[:read + 1])))
        followed.keep_place(str(place), followed.place_of(opened))
    found = [*looks.behind(str(place), str(log), NOW)]
    assert len(found) == told and all(it.startswith("index-uncache-follow is 3 minutes behind ") for it in found), found
    assert [*looks.behind(str(tmp_path / "none"), str(log), NOW)] == []


@pytest.mark.parametrize("late, told", [(900, 1), (100, 0)])
def test_a_follower_that_stays_behind_a_rotation_is_told(tmp_path, late, told):
    log, place = tmp_path / "changes.log", tmp_path / "place"
    old, new = [json.dumps({"at": datetime.datetime.fromtimestamp(it, datetime.timezone.utc).isoformat()}) + "\n"
                for it in (NOW - 1800, NOW - late)]
    (tmp_path / "changes.log.1").write_text(old)
    with open(tmp_path / "changes.log.1", "rb") as opened:
        opened.seek(len(old))
        followed.keep_place(str(place), followed.place_of(opened))
    log.write_text("")
    assert [*looks.behind(str(place), str(log), NOW)] == []
    log.write_text(new)
    assert len([*looks.behind(str(place), str(log), NOW)]) == told
