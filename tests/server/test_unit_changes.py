"""The changes since a copy, out of nginx's logs: which count, and in which order, without nginx."""
import contextlib
import datetime
import gzip
import json
import os
import sqlite3
import subprocess
import sys

import pytest
from support.library import changes, copies
from support.places import TOP
from support.planted import catches

UTC = datetime.timezone.utc


@pytest.mark.parametrize("line, is_since", [
    ('{"at":"2026-01-02T03:04:05+00:00"}', True), ('{"at":"2026-01-02T03:04:04+00:00"}', False),
    ('{"at":"2026-01-02T05:04:04+02:00"}', False), ('{"at":"2026-01-02T01:04:05-02:00"}', True),
    ('{"time":"2026-01-02T03:04:04+00:00"}', False), ('{"body":"no time"}', True), ("no JSON", True), ("[1]", True),
    ('{"at":"2026-01-01T00:00:00"}', True)])
def test_a_change_counts_from_the_second_of_the_copy_on_and_without_a_time_too(tmp_path, line, is_since):
    since = datetime.datetime(2026, 1, 2, 3, 4, 5, tzinfo=UTC)
    (tmp_path / "changes.log").write_text(f"{line}\n")
    log = changes.Log(f"{tmp_path}/changes.log", since, None)
    assert [it for _, it in log.lines()] == [f"{line}\n"] * is_since and log.count == is_since


def test_changes_come_oldest_first_from_rotated_logs(tmp_path):
    log = tmp_path / "changes.log"
    for name, text, written in (("changes.log", "third", 30), ("changes.log.1", "second", 20)):
        (tmp_path / name).write_text(f'{{"body":"{text}"}}\n')
        os.utime(tmp_path / name, (written, written))
    with gzip.open(tmp_path / "changes.log.2.gz", "wb") as old:
        old.write(b'{"body":"first"}\n\n{"body":"\xff","at":"2026-01-01T00:00:00+00:00"}\n')
    os.utime(tmp_path / "changes.log.2.gz", (10, 10))
    (tmp_path / "changes.log.folder").mkdir()
    (tmp_path / "other.log").write_text("{}\n")
    since = datetime.datetime.fromtimestamp(0, UTC)
    said = changes.changes_since([str(log)], since, str(tmp_path / "made"))
    made = [json.loads(it)["body"] for it in (tmp_path / "made").read_text().splitlines()]
    assert made == ["first", "\ufffd", "second", "third"]
    first, rest = said.split("\n   ")
    assert first == f"nginx passed on 4 of them. They are in {tmp_path}/made, oldest first."
    assert rest.startswith(f"{log} begins at 2026-01-01 00:00:00 UTC.")
    later = datetime.datetime(2026, 1, 1, 0, 0, 1, tzinfo=UTC)
    assert "passed on 3 of" in changes.changes_since([str(log)], later, str(tmp_path / "made"))


@catches("server/lib/package_index/changes.py", "(late if self.first > self.since else [])", "[]",
         case="torn-since2-2026-01-17 00:00:00")
@pytest.mark.parametrize("first, since, begins", [
    ('{"at":"2026-01-15T00:00:00+02:00"}', (2026, 1, 1), "2026-01-14 22:00:00"),
    ('{"at":"2026-01-15T00:00:00+00:00"}', (2026, 1, 15), ""), ("torn", (2026, 1, 16), "2026-01-17 00:00:00"),
    ("torn", (2026, 1, 18), ""), ('{"at":"2026-01-15T00:00:00"}', (2026, 1, 16), "2026-01-17 00:00:00")])
def test_a_log_that_begins_after_the_copy_may_lack_what_came_before(tmp_path, first, since, begins):
    """As after a restore of a copy that is older than the logs that are kept."""
    log = tmp_path / "changes.log"
    log.write_text(f'{first}\n{{"at":"2026-01-17T00:00:00+00:00"}}\n')
    said = changes.changes_since([str(log)], datetime.datetime(*since, tzinfo=UTC), str(tmp_path / "made"))
    wanted = f"\n   {log} begins at {begins} UTC. If there were changes before, they are missing." if begins else ""
    assert said.endswith(f"oldest first.{wanted}")


@catches("server/lib/package_index/changes.py", "if not self.first:", "if not self.first and self.path == self.since:")
@pytest.mark.parametrize("text", ["", "torn\n"])
@pytest.mark.told("a restore finds no line in the log of changes")
def test_a_log_without_a_line_says_that_changes_are_elsewhere(tmp_path, text):
    """That of a new machine: the package makes it empty."""
    log = tmp_path / "changes.log"
    log.write_text(text)
    said = changes.changes_since([str(log)], datetime.datetime(2026, 1, 1, tzinfo=UTC), str(tmp_path / "made"))
    assert said.endswith(f"\n   {log} has no line. If there were changes since then, they are missing, or in the log "
                         "of another machine.")


@catches("server/lib/package_index/changes.py", "return (late if self.first > self.since else []) + back",
         "return late if self.first > self.since else []", case="moments0-told0")
@pytest.mark.parametrize("moments, told", [
    (["03:16", "03:20", "02:25", "02:30"], ["02:25"]), (["03:10", "02:25", "03:16"], ["02:25"]),
    (["03:16", "02:15", "03:17", "02:16"], ["02:15", "02:16"]), (["03:10", "03:09"], []), (["03:20", "03:16"], []),
    (["03:00", "03:14", "03:16"], [])])
@pytest.mark.told("a restore finds no line in the log of changes")
def test_changes_of_after_a_clock_that_was_set_back_may_seem_older_than_the_copy_and_that_is_told(
        tmp_path, moments, told):
    """The copy is of 03:15, by a clock that was an hour ahead."""
    files = f"{tmp_path}/changes.log.1", f"{tmp_path}/changes.log"
    for path, part in zip(files, (moments[:2], moments[2:])):
        with open(path, "w") as log:
            log.writelines(f'{{"at":"2026-01-01T{at}:00+00:00"}}\nno time\n' for at in part)
    said = changes.changes_since([files[1]], datetime.datetime(2026, 1, 1, 3, 15, tzinfo=UTC), f"{tmp_path}/made")
    found = [it.partition(" was set back to 2026-01-01 ")[2][:5] for it in said.split("\n   ") if "set back" in it]
    assert found == told, said


@catches("server/lib/package_index/changes.py", "if self.uploaded - it.before <= SLACK]", "if self.uploaded]",
         case='30T10:00:00-"status":201,"method":"PUT"-False')
@catches("server/lib/package_index/changes.py", "if self.uploaded - it.before <= SLACK]", "if not self.uploaded]",
         case='01T03:10:00-"status":201,"method":"PUT"-True')
@pytest.mark.parametrize("uploaded, last, is_told", [
    ("30T10:00:00", '"status":201,"method":"PUT"', False), ("30T10:00:59", '"status":201,"method":"PUT"', False),
    ("30T10:00:00", '"status":200,"method":"POST","path":"/legacy/"', False),
    # nobody knows of such an upload, or it may have come another way
    ("", '"status":201,"method":"PUT"', True), ("30T09:58:00", '"status":201,"method":"PUT"', True),
    ("30T10:00:00", '"status":409,"method":"PUT"', True), ("30T10:00:00", '"status":200,"method":"DELETE"', True),
    # it was there before the clock was set back
    ("01T03:10:00", '"status":201,"method":"PUT"', True)])
def test_a_clock_that_was_set_back_before_the_copy_was_made_is_not_told(tmp_path, uploaded, last, is_told):
    """The clock went back from 03:20 to 02:25 on the first of a month. On the 30th came an upload that the copy has: so
    it was made later, and what came since is later than it. Of the first day is one that came after the step, too."""
    copy, log = f"{tmp_path}/index-20260131T031500Z.db", tmp_path / "changes.log"
    upload = '"status":201,"method":"PUT"'
    lines = ("01T03:10:00", upload), ("01T03:20:00", upload), ("01T02:25:00", '"status":200'), ("01T03:10:30", upload)
    log.write_text("".join(f'{{"at":"2026-01-{at}+00:00",{text}}}\n' for at, text in (*lines, ("30T10:00:05", last))))
    with contextlib.closing(sqlite3.connect(copy)) as db:
        db.execute("CREATE TABLE names (last_upload)")
        if uploaded:
            moment = datetime.datetime.fromisoformat(f"2026-01-{uploaded}+00:00").timestamp()
            db.executemany("INSERT INTO names VALUES (?)", [(int(moment),), (None,), (5,)])
        db.commit()
    since = datetime.datetime(2026, 1, 31, 3, 15, tzinfo=UTC)
    said = changes.changes_since([str(log)], since, f"{tmp_path}/made", copies.latest_upload(copy))
    assert (" was set back to 2026-01-01 02:25:00 UTC" in said) is is_told, said


@catches("server/lib/package_index/changes.py", 'OTHER = ".xz",', 'OTHER = ".none",')
def test_a_log_that_is_compressed_otherwise_is_told(tmp_path):
    (tmp_path / "changes.log").write_text('{"at":"2026-01-17T00:00:00+00:00"}\n')
    (tmp_path / "changes.log.1.xz").write_bytes(b"\xfd7zXZ\n\n")
    said = changes.changes_since([f"{tmp_path}/changes.log"], datetime.datetime(2026, 1, 1, tzinfo=UTC),
                                 f"{tmp_path}/made")
    told = f"\n   {tmp_path}/changes.log.1.xz: it is compressed, and not by gzip: no more of this log can be read\n"
    assert said.startswith("nginx passed on 1 of them.") and told in said


@catches("server/lib/package_index/changes.py",
         "made.writelines(line for _, line in heapq.merge(*(it.lines() for it in read), key=lambda it: it[0]))",
         "made.writelines([line for _, line in heapq.merge(*(it.lines() for it in read), key=lambda it: it[0])])")
@pytest.mark.slow
def test_logs_of_any_length_are_gathered_in_little_memory(tmp_path):
    """Two of 32 MB each."""
    script = """import datetime, re, sys
from support.library import changes, copies
sys.stdout.write(changes.changes_since(sys.argv[2:], datetime.datetime(2026, 1, 1, tzinfo=datetime.timezone.utc),
                                       sys.argv[1]))
print("", int(re.findall("VmHWM:\\s*(\\d+) kB", open("/proc/self/status").read())[0]) >> 10)"""
    logs = [f"{tmp_path}/{it}.log" for it in "ab"]
    line = json.dumps({"at": "2026-01-17T00:00:00+00:00", "body": "x" * 300}) + "\n"
    for path in logs:
        with open(path, "w", encoding="ascii") as made:
            made.write(line * ((32 << 20) // len(line)))
    ended = subprocess.run([sys.executable, "-B", "-c", script, f"{tmp_path}/made", *logs], stdout=subprocess.PIPE,
                           text=True, check=True, env={**os.environ, "PYTHONPATH": f"{TOP}/tests"})
    assert os.path.getsize(f"{tmp_path}/made") == sum(map(os.path.getsize, logs))
    assert int(ended.stdout.split()[-1]) < 60, ended.stdout


@catches("server/lib/package_index/changes.py", "heapq.merge(*(it.lines() for it in read), key=lambda it: it[0]))",
         "(each for it in read for each in it.lines()))",
         also=["server/test_restores.py::TestChangesSince::test_each_nginx_has_a_log_of_its_own"])
def test_changes_of_several_fronts_come_oldest_first(tmp_path):
    at = '{{"body":"{}","at":"2026-01-01T00:00:0{}+0{}:00"}}\n'.format
    fifth = '{"body":"fifth"}'
    (tmp_path / "one.log").write_text(at("first", 1, 0) + '{"body":"second"}\n' + at("fourth", 5, 0) + fifth)
    (tmp_path / "two.log").write_text(at("third", 2, 0) + at("sixth", 6, 0) + at("before", 9, 1))
    since = datetime.datetime(2026, 1, 1, tzinfo=UTC)
    logs = [f"{tmp_path}/{name}.log" for name in ("two", "none", "one")]
    said = changes.changes_since(logs, since, str(tmp_path / "made"))
    made = [json.loads(it)["body"] for it in (tmp_path / "made").read_text().splitlines()]
    assert made == ["first", "second", "third", "fourth", "fifth", "sixth"]
    assert said.startswith("nginx passed on 6 of them") and f"\n   There is no {tmp_path}/none.log. Look" in said


@catches("server/lib/package_index/changes.py", "heapq.merge(*(it.lines() for it in read), key=lambda it: it[0]))",
         "sorted(each for it in read for each in it.lines()))")
def test_logs_of_several_fronts_keep_their_own_order_within_a_second_and_a_torn_line_its_place(tmp_path):
    at = '{{"at":"2026-01-01T00:00:0{}+00:00","body":"{}"}}\n'.format
    (tmp_path / "one.log").write_text(at(1, "d") + at(2, "f") + at(2, "c") + at(3, "torn")[:30])
    (tmp_path / "two.log").write_text(at(1, "b") + at(2, "e") + at(2, "a") + at(4, "g"))
    logs = [f"{tmp_path}/{name}.log" for name in ("one", "two")]
    said = changes.changes_since(logs, datetime.datetime(2026, 1, 1, tzinfo=UTC), str(tmp_path / "made"))
    made = (tmp_path / "made").read_text().splitlines()
    assert said.startswith("nginx passed on 8 of them") and made[4] == at(3, "torn")[:30]
    assert "".join(json.loads(it)["body"] for it in made[:4] + made[5:]) == "dbfceag"


def test_no_log_of_changes_is_told(tmp_path):
    said = changes.changes_since([str(tmp_path / "none[1].log")], datetime.datetime.now(UTC), str(tmp_path / "made"))
    assert said.startswith(f"There is no {tmp_path}/none[1].log. Look for POST") and not (tmp_path / "made").exists()
