"""index-metrics measures what the alarms ask for, of an index that answers and of one that does not."""
import os
import re
import stat
import time

import pytest
from support.places import SERVER
from support.planted import catches
from support.ports import free_port
from support.running import run_command
from support.server.expected import assert_ends
from support.server.stand_ins import stand_ins, written
from support.server.waits import wait_for
from support.server.watched import METRICS, measured
from support.serving import Index, accepted, make_index

HOUR, DAY = 3600, 86_400


@pytest.fixture
def words(program, folder, certificate):
    """What is measured: a database, a folder with two backups and one that is being made, nginx's certificate."""
    make_index(program, f"{folder}/index.db")
    os.makedirs(f"{folder}/backups")
    for name, age in (("index-1.db", 2 * HOUR), ("index-2.db", HOUR), ("index-3.part", 0)):
        with open(f"{folder}/backups/{name}", "wb") as made:
            made.write(bytes(1000))
        os.utime(made.name, (time.time() - age,) * 2)
    with open(f"{folder}/packages.conf", "w") as conf:
        conf.write(f"server {{\n    ssl_certificate     {certificate};\n    ssl_certificate_key /none;\n}}\n")
    return [f"{folder}/index.db", f"{folder}/backups", "--nginx", f"{folder}/packages.conf"]


@pytest.fixture
def path(folder):
    """Of a systemctl that tells 7 restarts."""
    return stand_ins(f"{folder}/bin", systemctl="echo 7")


@pytest.fixture
def seen(program, words, path, folder):
    """What is measured of an index that answers, with the sizes of its files meanwhile."""
    with Index(program, path=f"{folder}/index.db") as index:
        accepted(index.claim("frob"))
        accepted(index.upload("frob", "frob-1.0.tar.gz", b"new"))
        found = measured([*words, "--url", f"http://127.0.0.1:{index.port}", "--state", f"{folder}/state", "--changes",
                          f"{folder}/none"], PATH=path)
        found["sizes"] = [os.path.getsize(f"{folder}/index.db{end}") for end in ("", "-wal")]
    return found


@catches("server/bin/index-metrics", "is_up = reply.status == 200", "is_up = False")
def test_an_index_that_is_up(seen):
    assert seen.get("index_up") == 1 and 0 < seen["index_look_seconds"] < 30, seen


@catches("server/bin/index-metrics", 'size(f"{db}-wal")', 'size(f"{db}-log")')
def test_the_sizes_of_its_database_and_log(seen):
    assert [seen.get("index_database_bytes"), seen.get("index_log_bytes")] == seen["sizes"]


@catches("server/bin/index-metrics", "shutil.disk_usage(folder).free", "shutil.disk_usage(folder).used % 4096")
def test_the_room_on_its_disk(seen, folder):
    disk = os.statvfs(folder)
    free = disk.f_bavail * disk.f_frsize
    assert abs(seen.get('index_room_bytes,of="database"', 0) - free) < 1 << 30, (free, seen)


@catches("server/bin/index-metrics", 'max(made, default=(0, ""))', 'min(made, default=(0, ""))')
def test_its_newest_backup_and_how_many_there_are(seen):
    age = time.time() - seen.get("index_backup_newest_seconds", 0)
    assert abs(age - HOUR) < 120, seen
    assert [seen.get("index_backups"), seen.get("index_backup_parts")] == [2, 1], seen


@catches("server/bin/index-metrics", "if number.isdigit():", "if not number:",
         also=["test_each_alarm_asks_for_what_is_written"])
def test_its_restarts(seen):
    assert seen.get("index_restarts") == 7, seen


@catches("server/bin/index-metrics", r"ssl_certificate\s+", r"ssl_certificate_key\s+",
         also=["test_each_alarm_asks_for_what_is_written"])
def test_the_end_of_its_certificate(seen):
    days = (seen.get("index_certificate_end_seconds", 0) - time.time()) / DAY
    assert 1.9 < days <= 2.01


@catches("server/bin/index-metrics", '/damaged-*"', '/*"')
def test_no_damaged_log(seen):
    assert seen.get("index_damaged_logs") == 0, seen


def test_each_alarm_asks_for_what_is_written(seen):
    with open(f"{SERVER}/prometheus/index-alarms.yml") as kept:
        asked = set(re.findall(r"\bindex_[a-z_]+", kept.read()))
    assert len(asked) > 5
    # (that of a unit is written where one looks, of a follower where one runs, and of a volume where one lies)
    assert asked - {name.partition(",")[0] for name in seen} == {
        "index_health_status", "index_uncache_behind_seconds", "index_volume_bytes", "index_volume_copies_bytes",
        "index_punch_kept_bytes", "index_punch_newest_seconds"}


@catches("server/lib/package_index/counted.py", "grown.read_on(log, before.place, before.at,",
         "grown.read_on(log, None, 0.0,",
         also=["server/test_unit_counted.py::"
               "test_a_run_that_is_ended_at_some_step_counts_nothing_twice_and_loses_nothing"])
def test_the_changes_that_nginx_passes_on_are_counted_by_kind_and_status_with_their_time(front, folder):
    """Over two runs, each of which begins where the one before ended; those without a token don't reach the index."""
    words = [f"{folder}/none.db", folder, "--url", "http://127.0.0.1:1", "--state", f"{folder}/state", "--changes",
             f"{front.folder}/index-changes.log", "--bodies", f"{front.folder}/cache/index-bodies"]
    accepted(front.claim("frob"))
    accepted(front.upload("frob", "frob-1.0.tar.gz", b"new"))
    assert wait_for(lambda: len(front.changes()) == 2)
    assert measured(words)['index_changes_total,kind="upload",status="201"'] == 1
    assert front.request(do="ban_file", file="other-1.0.tar.gz")[0] == 404
    accepted(front.upload("frob", "frob-2.0.tar.gz", b"newer"))
    assert wait_for(lambda: len(front.changes()) == 4)
    found = measured(words)
    counts = {name: value for name, value in found.items() if name.startswith("index_changes_total") and value}
    assert counts == {'index_changes_total,kind="claim",status="200"': 1,
                      'index_changes_total,kind="upload",status="201"': 2,
                      'index_changes_total,kind="ban_file",status="404"': 1}
    assert [found[f'index_change_seconds_count,of="{it}"'] for it in ("uploads", "others")] == [2, 2]
    assert 0 < found['index_change_seconds_sum,of="uploads"'] < 60 and found["index_bodies_bytes"] == 0


@catches("server/bin/index-metrics", "except (OSError, http.client.HTTPException):", "except ValueError:",
         also=["test_a_damaged_log_is_counted"])
def test_an_index_that_is_down_is_written_for_all_to_read(words, path, folder):
    port, out = free_port(), f"{folder}/out.prom"
    assert_ends(run_command([*METRICS, *words, "--url", f"http://127.0.0.1:{port}", "--out", out], PATH=path), 0)
    text = written(out)
    assert f'\nindex_up{{port="{port}"}} 0\n' in text, text
    assert stat.S_IMODE(os.stat(out).st_mode) == 0o644


@catches("server/bin/index-metrics", '/damaged-*"', '/damage"')
def test_a_damaged_log_is_counted(words, path, folder):
    os.mkdir(f"{folder}/damaged-0")
    found = measured([*words, "--url", f"http://127.0.0.1:{free_port()}"], PATH=path)
    assert found.get("index_damaged_logs") == 1, found


@catches("server/bin/index-metrics", "if ended and now - ended < FRESH:", "if ended:", case="long_ago")
@catches("server/bin/index-metrics", "int(status in ANSWERED)", "int(status not in ANSWERED)", case="well",
         also=["test_what_the_check_of_health_saw_is_taken_over[slow_and_bad]"])
@catches("server/bin/index-metrics", "and now - begun > PATIENCE:", "and now - begun > 10 * PATIENCE:",
         case="under_way_for_too_long")
@catches("server/bin/index-metrics", "and now - begun > PATIENCE:", "and now - begun > 0:", case="under_way")
@catches("server/bin/index-metrics", "PATIENCE, FRESH = 30, 300", "PATIENCE, FRESH = 30, 60", case="five_minutes_ago")
@pytest.mark.parametrize("status, begun, ended, up, seconds", [
    (0, 10, 9.5, 1, 0.5), (8, 70, 10, 0, 60), (0, 40, None, 0, 40), (0, 20, None, None, None),
    (0, 290, 289, 1, 1), (0, 400, 399, None, None)],
    ids=["well", "slow_and_bad", "under_way_for_too_long", "under_way", "five_minutes_ago", "long_ago"])
def test_what_the_check_of_health_saw_is_taken_over(words, folder, status, begun, ended, up, seconds):
    """Unless that is long ago."""
    now = time.clock_gettime(time.CLOCK_MONOTONIC)
    started, exited = (0 if it is None else int(1e6 * (now - it)) for it in (begun, ended))
    shown = (f"ExecMainStatus={status}\\nExecMainStartTimestampMonotonic={started}\\n"
             f"ExecMainExitTimestampMonotonic={exited}\\n")
    path = stand_ins(f"{folder}/systemd", systemctl=f"printf '{shown}'")
    found = measured([*words, "--health", "it.service"], PATH=path)
    assert found, "nothing was measured"
    assert found.get("index_up") == up, found
    # one that is under way has taken a moment more by now
    took = found.get("index_look_seconds")
    assert took is None if seconds is None else seconds - 0.01 < took < seconds + (0.01 if ended else 9), found
