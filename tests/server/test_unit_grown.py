"""A log of changes is read on from run to run: each line once, whatever becomes of the log, and in little memory."""
import gzip
import json
import os
import shutil
import subprocess
import sys

import pytest
from support.library import followed, grown, tallies
from support.places import BIN
from support.planted import catches
from support.server.stand_ins import stand_ins

MIB = 1 << 20
PEAK = """import re, runpy, sys
sys.argv = sys.argv[1:]
try:
    runpy.run_path(sys.argv[0], run_name="__main__")
except SystemExit as end:
    print("status", end.code)
counts = dict(line.split(": ") for line in open("/proc/self/io"))
peak = int(re.findall("VmHWM:\\s*(\\d+) kB", open("/proc/self/status").read())[0])
print("read", int(counts["rchar"]) >> 20, "peak", peak >> 10)
"""


class Log:
    """A log of lines that are told apart by their numbers, which logrotate rotates as it is told."""

    def __init__(self, folder):
        self.path, self.number = f"{folder}/changes.log", 0
        self.write(0)

    def write(self, count, end="\n"):
        with open(self.path, "a", encoding="ascii") as made:
            for _ in range(count):
                self.number += 1
                made.write(f"line {self.number} {'x' * (self.number % 40)}{end}")

    def rotate(self, is_copied, is_compressed):
        """By a new file or a copy; what was rotated before is compressed, or this one is so at once."""
        if not os.path.getsize(self.path):
            return
        for at in range(6, 0, -1):
            for end in ("", ".gz"):
                if os.path.exists(f"{self.path}.{at}{end}"):
                    os.rename(f"{self.path}.{at}{end}", f"{self.path}.{at + 1}{end}")
        if is_copied:
            shutil.copy2(self.path, f"{self.path}.1")
            os.truncate(self.path, 0)
        else:
            os.rename(self.path, f"{self.path}.1")
            self.write(0)
        done = f"{self.path}.{1 if is_compressed else 2}"
        if os.path.exists(done):
            with open(done, "rb") as old, gzip.open(f"{done}.gz", "wb") as made:
                shutil.copyfileobj(old, made)
            shutil.copystat(done, f"{done}.gz")
            os.remove(done)


class Reader:
    """What was read, and the place: a run that is killed leaves both as they were."""

    def __init__(self, log):
        self.log, self.place, self.seen = log, None, []

    def read(self, is_killed=False):
        seen = []
        place = grown.read_on(self.log.path, self.place, 0.0, seen.append, lambda: None)
        if not is_killed:
            self.place, self.seen = place, self.seen + [int(it.split()[1]) for it in seen]


@catches("server/lib/package_index/grown.py", "begin = each.seek(place.read if place and each is left[0] else 0)",
         "begin = each.tell()")
@pytest.mark.parametrize("trial", range(12))
def test_each_line_is_read_once_over_rotations_and_killed_runs(tmp_path, chance, trial):
    log = Log(tmp_path)
    reader, done = Reader(log), []
    for _ in range(30):
        done.append(chance.choice(["write", "write", "rotate", "read", "read", "killed"]))
        if done[-1] == "write":
            log.write(chance.randrange(1, 60))
        elif done[-1] == "rotate":
            log.rotate(chance.random() < 0.3, chance.random() < 0.3)
        else:
            reader.read(is_killed=done[-1] == "killed")
    reader.read()
    assert reader.seen == list(range(1, log.number + 1)), done


@catches("server/lib/package_index/grown.py",
         "if [inode_of(it) for it in files] == [os.stat(it).st_ino for it in rotated(log)]:", "if files:")
@pytest.mark.parametrize("is_compressed", [False, True])
@pytest.mark.parametrize("at", range(4))
def test_a_rotation_between_two_steps_of_a_run_loses_no_line(tmp_path, monkeypatch, at, is_compressed):
    """It comes just before this file is opened."""
    log, opened, file_of = Log(tmp_path), [], grown.file_of
    reader = Reader(log)
    for _ in range(3):
        log.write(9)
        reader.read()
        log.write(9)
        log.rotate(False, is_compressed)

    def late(path):
        opened.append(path)
        if len(opened) == at + 1:
            log.write(5)
            log.rotate(False, is_compressed)
            log.write(5)
        return file_of(path)

    monkeypatch.setattr(grown, "file_of", late)
    reader.read()
    monkeypatch.undo()
    reader.read()
    assert len(opened) > at and reader.seen == list(range(1, log.number + 1))


def test_a_log_that_is_rotated_at_each_look_is_told(tmp_path, monkeypatch):
    log, file_of = Log(tmp_path), grown.file_of
    log.write(1)

    def late(path):
        log.rotate(False, False)
        log.write(1)
        return file_of(path)

    monkeypatch.setattr(grown, "file_of", late)
    with pytest.raises(OSError, match="is rotated again and again"):
        Reader(log).read()


@catches("server/lib/package_index/grown.py", "room -= len(line)", "room -= 0")
def test_of_a_long_log_a_run_reads_a_part_and_the_next_one_goes_on(tmp_path, monkeypatch):
    log = Log(tmp_path)
    reader, runs = Reader(log), 0
    log.write(100)
    log.rotate(False, False)
    log.write(100)
    monkeypatch.setattr(grown, "MOST", os.path.getsize(log.path) // 3)
    while len(reader.seen) < 200:
        before = len(reader.seen)
        reader.read()
        runs += 1
        assert len(reader.seen) > before
    assert runs > 5 and reader.seen == list(range(1, 201))


@catches("server/lib/package_index/followed.py", 'iter(lambda: log.readline(LONGEST), b"")', 'iter(log.readline, b"")')
@pytest.mark.parametrize("has_end", [False, True])
def test_what_is_longer_than_a_line_of_nginx_is_passed_over_piece_by_piece(tmp_path, monkeypatch, has_end):
    """As the zeros that a loss of power leaves. Without an end it is not read again by each run."""
    log = Log(tmp_path)
    monkeypatch.setattr(followed, "LONGEST", 100)
    reader, longest = Reader(log), []
    log.write(3)
    with open(log.path, "ab") as made:
        made.write(bytes(1050) + b"\n" * has_end)
    reader.read()
    left = os.path.getsize(log.path) - reader.place.read
    assert left == (0 if has_end else 50)
    log.write(3)
    with open(log.path, "rb") as opened:
        longest = [len(it) for it in followed.whole_lines(opened)]
    assert max(longest) <= 100
    if has_end:
        reader.read()
        assert reader.seen == [1, 2, 3, 4, 5, 6]


def test_a_place_that_is_gone_is_told_and_only_what_was_written_since_is_read(tmp_path):
    log, forgot = Log(tmp_path), []
    log.write(3)
    reader = Reader(log)
    reader.read()
    os.truncate(log.path, 0)
    log.write(2)
    log.rotate(False, True)
    log.write(2)
    os.utime(f"{log.path}.1.gz", (1000, 1000))
    seen = []
    place = grown.read_on(log.path, reader.place, 2000.0, seen.append, lambda: forgot.append(len(seen)))
    assert [int(it.split()[1]) for it in seen] == [6, 7] and forgot == [0]
    assert grown.read_on(log.path, place, 2000.0, seen.append, lambda: forgot.append(9)) == place and forgot == [0]
    os.utime(log.path, (1000, 1000))
    assert grown.read_on(log.path, reader.place, 2000.0, seen.append, lambda: forgot.append(9)) is None
    assert len(seen) == 2 and forgot == [0, 9]


@pytest.fixture(scope="module")
def large(tmp_path_factory):
    """A log of 400 MB, of changes that were refused."""
    folder = tmp_path_factory.mktemp("large")
    line = {"at": "2033-05-18T03:33:20+00:00", "id": "0" * 32, "from": "192.0.2.7", "status": 401, "reached": True,
            "took": 0.004, "method": "POST", "path": "/requests", "body": json.dumps({"do": "claim", "name": "frob"})}
    piece = f"{json.dumps(line, separators=(',', ':'))}\n".encode() * 4000
    with open(folder / "changes.log", "wb") as made:
        for _ in range((400 * MIB) // len(piece)):
            made.write(piece)
    return str(folder / "changes.log")


def peak_and_read(path, name, *words):
    """How many MiB of memory a program took, and how many it read."""
    ended = subprocess.run([sys.executable, "-B", "-c", PEAK, f"{BIN}/{name}", *words], stdout=subprocess.PIPE,
                           text=True, check=True, env={**os.environ, "PATH": path})
    _, read, _, peak = ended.stdout.split()[-4:]
    return int(peak), int(read)


@catches("server/lib/package_index/grown.py", "if not is_old and is_at(log, place):",
         "if is_old and is_at(log, place):", case="index-alarms",
         also=["test_each_line_is_read_once_over_rotations_and_killed_runs"])
@pytest.mark.slow
@pytest.mark.parametrize("name", ["index-alarms", "index-metrics"])
def test_a_large_log_is_read_once_in_little_memory(large, tmp_path, name):
    """Then a run reads what the log has got since."""
    words = ["--state", f"{tmp_path}/state", "--changes", large, "--place", f"{tmp_path}/none"]
    if name == "index-alarms":
        words += ["--folder", str(tmp_path), "--backups", str(tmp_path), "--db", f"{tmp_path}/none", "--failed",
                  f"{tmp_path}/none"]
    else:
        words += ["--url", "http://127.0.0.1:1", "--", f"{tmp_path}/none", str(tmp_path)]
    path = stand_ins(f"{tmp_path}/bin", systemctl="exit 0")
    runs = [peak_and_read(path, name, *words) for _ in range(3)]
    assert max(peak for peak, _ in runs) < 60, runs
    assert [read > 100 for _, read in runs] == [True, True, False], runs
    assert runs[2][1] < 20, runs


def test_a_tally_of_a_log_forgets_nothing_that_another_run_counted(tmp_path, monkeypatch):
    """A run that ends before it has kept its place counts nothing."""
    log = tmp_path / "changes.log"
    log.write_text('{"at":"2033-05-18T03:33:20+00:00","status":500}\n' * 3)
    before = tallies.Tally(None, {})
    first = tallies.read_on(str(log), before, 2_000_000_000.0)
    assert before.minutes == {} and tallies.read_on(str(log), before, 2_000_000_000.0) == first
