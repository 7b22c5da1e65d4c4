"""How many changes failed or were refused, by a log that is read on from look to look."""
import datetime
import gzip
import json
import os

import pytest
from support.library import tallies
from support.planted import catches

NOW = 2_000_000_040.0
NONE = tallies.Tally(None, {})


def line(status, seconds_ago=60.0, **more):
    at = datetime.datetime.fromtimestamp(NOW - seconds_ago, datetime.timezone.utc).isoformat(timespec="seconds")
    return json.dumps({"at": at, "id": "a", "status": status, **more}, separators=(",", ":")) + "\n"


def failed(tally):
    return tallies.within(tally, NOW, tallies.FAILED)[0]


@pytest.fixture
def log(tmp_path):
    path = tmp_path / "changes.log"

    def write(*lines, name="changes.log", how="a"):
        with open(tmp_path / name, how) as made:
            made.write("".join(lines))
        for it in tmp_path.iterdir():
            os.utime(it, (NOW, NOW))
        return str(path)
    return write


@catches("server/lib/package_index/tallies.py", "lambda line: count(line, minutes), minutes.clear)",
         "lambda line: count(line, minutes), int)",
         ("server/lib/package_index/grown.py", "if not is_old and is_at(log, place):",
          "if is_old and is_at(log, place):"))
def test_each_line_is_counted_once_whatever_becomes_of_the_log(log, tmp_path):
    path = log(line(500), line(200))
    seen = tallies.read_on(path, NONE, NOW)
    assert failed(seen) == 1 == failed(tallies.read_on(path, seen, NOW))
    log(line(500), line(500)[:-1])
    seen = tallies.read_on(path, seen, NOW)
    assert failed(seen) == 2, "a line without its end is not whole yet"
    log("\n")
    os.rename(path, f"{path}.1")
    seen = tallies.read_on(path, seen, NOW)
    assert failed(seen) == 3, "what came before it was rotated away"
    log(line(500))
    seen = tallies.read_on(path, seen, NOW)
    assert failed(seen) == 4, "a new log"
    (tmp_path / "changes.log.1").unlink()
    assert failed(tallies.read_on(path, seen, NOW)) == 4


def test_a_log_by_a_link_is_counted_once(log, tmp_path):
    path = log(line(500), line(500))
    (tmp_path / "link").symlink_to(path)
    assert failed(tallies.read_on(str(tmp_path / "link"), NONE, NOW)) == 2


def test_logs_between_the_place_and_the_last_are_read_too(log, tmp_path):
    path = log(line(500))
    seen = tallies.read_on(path, NONE, NOW)
    os.rename(path, f"{path}.2")
    log(line(500), line(500), name="changes.log.1")
    log(line(500))
    assert failed(tallies.read_on(path, seen, NOW)) == 4


def test_all_is_counted_again_if_the_place_is_gone(log, tmp_path):
    path = log(line(500), line(500))
    seen = tallies.read_on(path, NONE, NOW)
    os.remove(path)
    with gzip.open(f"{path}.2.gz", "wb") as made:
        made.write((line(500) * 2).encode())
    os.utime(f"{path}.2.gz", (NOW, NOW))
    log(line(500))
    assert failed(tallies.read_on(path, seen, NOW)) == 3
    # of a day before it is not read at all
    os.utime(f"{path}.2.gz", (NOW - 86_401, NOW - 86_401))
    assert failed(tallies.read_on(path, NONE, NOW)) == 1


def test_a_damaged_log_is_read_up_to_there(log, tmp_path):
    with gzip.open(tmp_path / "changes.log.2.gz", "wb") as made:
        made.write((line(500) * 20_000).encode())
    whole = (tmp_path / "changes.log.2.gz").read_bytes()
    (tmp_path / "changes.log.2.gz").write_bytes(whole[:-20])
    path = log(line(500))
    assert failed(tallies.read_on(path, NONE, NOW)) > 1


@pytest.mark.parametrize("more, counted", [
    ({"body": '{"status":500,"at":"x"}'}, 0), ({"user": '","status":500,"x":"'}, 0), ({}, 0)])
def test_what_a_client_sends_is_no_status(log, more, counted):
    text = json.dumps({"at": line(200)[7:32], "user": "", "body": "", "status": 200, **more}, separators=(",", ":"))
    assert failed(tallies.read_on(log(f"{text}\n"), NONE, NOW)) == counted


def test_lines_that_can_not_be_read_are_passed_over(log):
    path = log("x\n", "\n", '{"status":500,"at":"never"}\n', '{"status":500}\n', '{"at":5,"status":500}\n', line(500))
    assert failed(tallies.read_on(path, NONE, NOW)) == 1


def test_what_is_older_than_a_day_or_later_than_now_is_forgotten(log):
    path = log(line(500, 86_400), line(500, 86_400 + 130), line(500, -61), line(500, 3600), line(500, 3700))
    seen = tallies.read_on(path, NONE, NOW)
    assert len(seen.minutes) == 3 and tallies.within(seen, NOW, tallies.FAILED) == (1, 2)
    assert tallies.read_on(path, seen, NOW + 90_000).minutes == {}


@pytest.mark.parametrize("status, kind", [(500, 0), (401, 1), (400, 2), (404, 2), (499, 2), (502, None), (503, None)])
def test_a_change_is_of_the_kind_of_its_status(status, kind):
    assert tallies.kind_of(status) == kind
