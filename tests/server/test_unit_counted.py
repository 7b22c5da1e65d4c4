"""Changes by kind and status, and how long they took, out of nginx's log of changes."""
import json
import os
import re

import pytest
from support.library import counted
from support.places import TOP
from support.planted import catches
from support.programs import program_of
from support.unit import ends, raises

METRICS = program_of("index-metrics")
NOW = 2_000_000_000.0


def line(**more):
    said = {"at": "2033-05-18T03:33:20+00:00", "id": "a", "status": 200, "reached": True, "took": 0.2,
            "method": "POST", "path": "/requests", "body": '{"do":"claim","name":"frob"}'}
    return json.dumps({**said, **more}, separators=(",", ":")) + "\n"


@pytest.fixture
def log(tmp_path):
    path = tmp_path / "changes.log"

    def write(*lines):
        with open(path, "a", encoding="utf-8") as made:
            made.writelines(lines)
        return str(path)
    return write


def counts(path, before=counted.NONE):
    return counted.read_on(path, before, NOW)


def test_the_kinds_are_the_requests_of_the_page():
    with open(f"{TOP}/docs/reference/REQUESTS.md", encoding="utf-8") as kept:
        page = kept.read().partition("\n## Requests\n")[2].partition("\n## ")[0]
    asked = set(re.findall(r"^\| ([a-z_]+)(?::.*?)?(?: \(.*?\))? \|", page, re.M))
    assert {*counted.ASKED, "upload", "delete"} == asked


@catches("server/lib/package_index/counted.py", 'KIND_OF.get(do, "other")', "KIND_OF.get(do, str(do))",
         case="more3-other")
@pytest.mark.parametrize("more, kind", [
    ({}, "claim"), ({"body": ' {\n"name" : "frob", "do"\t:\n"ban_file" }'}, "ban_file"),
    ({"body": '{"do":"ba\\u006e_file"}'}, "ban_file"), ({"body": '{"do":"mine"}'}, "other"), ({"body": ""}, "other"),
    ({"body": '{"do":["claim"]}'}, "other"), ({"body": "[1]"}, "other"), ({"body": "[" * 5000}, "other"),
    ({"body": '{"name":"claim"}'}, "other"), ({"method": "PUT"}, "upload"), ({"method": "DELETE"}, "delete"),
    ({"path": "/legacy/", "body": ""}, "legacy_upload"), ({"method": "PATCH"}, "other")])
def test_a_change_is_of_the_kind_that_it_asks_for(log, more, kind):
    assert counts(log(line(**more))).changes == {kind: {"200": 1}}


@catches("server/lib/package_index/counted.py", r'"body":"(?:\{ *\\"do\\": *', r'"body":"(?:\{\\"do\\":')
@pytest.mark.parametrize("more", [
    {}, {"body": '{ "do": "claim"}'}, {"body": '{"name":"frob","do":"claim"}'}, {"body": '{"do":"x"}'},
    {"body": '{"do":"claim'}, {"body": ""},
    {"reached": False}, {"method": "PUT"}, {"method": "DELETE"}, {"method": "PATCH"}, {"path": "/legacy/"},
    {"path": '/"status":500,"'}, {"user": '","status":500,"reached":true,"took":9.5,"method":"PUT","path":"'},
    {"body": '{"do":"yank","why":"\\"status\\":500"}'}])
def test_a_usual_line_is_read_quickly_as_another_is_slowly(more):
    usual = line(**more)
    is_usual = more.get("method") != "PATCH" and '"' not in more.get("path", "")
    assert bool(counted.USUAL.search(usual.encode())) is is_usual
    assert counted.USUAL.search(line(body='{ "do": "claim"}').encode())[6] == b"claim"
    said = dict(reversed(json.loads(usual).items()))
    other = json.dumps(said).encode()
    assert not counted.USUAL.search(other)
    assert counted.quickly_read(usual.encode()) == counted.slowly_read(usual.encode()) == counted.quickly_read(other)


@catches("server/lib/package_index/counted.py", "ALWAYS = 200, 401, 500", "ALWAYS = 200, 401",
         also=["server/test_unit_prometheus.py::test_what_is_written_keeps_to_the_format"])
def test_changes_are_counted_by_kind_and_status_from_run_to_run(log):
    first = counts(log(line(), line(status=404), line(status=404)))
    path = log(line(), line(method="PUT", status=500))
    assert counts(path, first).changes == {"claim": {"200": 2, "404": 2}, "upload": {"500": 1}}
    assert first.changes == {"claim": {"200": 1, "404": 2}}
    told = {it.labels: it.value for it in counted.metrics(counts(path, first)) if it.name == "index_changes_total"}
    # the first failure of a kind is a step from 0
    assert told[("kind", "yank"), ("status", "500")] == 0 == told[("kind", "claim"), ("status", "500")]
    assert told[("kind", "claim"), ("status", "404")] == 2


@pytest.mark.parametrize("text", [
    "x\n", "[1]\n", "{}\n", line(status="200"[:1] + "x"), line(method=5, status=None), line(took="long"),
    "\n", '{"status":' + "[" * 9000 + "\n"])
def test_a_line_that_can_not_be_read_is_passed_over(log, text):
    assert counts(log(text, line())).changes == {"claim": {"200": 1}}


def test_what_changes_took_is_counted_up_to_each_bound(log):
    """But of those that no index got, and of a log of before, which has no time."""
    path = log(line(took=0.05), line(took=0.051), line(took=61), line(took=7, reached=False),
               line(method="PUT", took=2.5), line(path="/legacy/", took=2.6), line().replace('"took":0.2,', ""))
    seen = counts(path)
    assert seen.took["others"] == [1, 1, 0, 0, 0, 0, 0, 0, 0, 0, 1, pytest.approx(61.101)]
    assert seen.took["uploads"] == [0, 0, 0, 0, 0, 1, 1, 0, 0, 0, 0, pytest.approx(5.1)]
    buckets = [it for it in counted.metrics(seen) if it.labels[0] == ("of", "uploads")]
    assert [(it.name, it.labels[-1][1], it.value) for it in buckets[-4:]] == [
        ("index_change_seconds_bucket", "60.0", 2), ("index_change_seconds_bucket", "+Inf", 2),
        ("index_change_seconds_sum", "uploads", 5.1), ("index_change_seconds_count", "uploads", 2)]


def run(tmp_path, monkeypatch, capsys, *more):
    words = [tmp_path / "none.db", tmp_path, "--url", "http://127.0.0.1:1", "--state", tmp_path / "state", "--changes",
             tmp_path / "changes.log", "--place", tmp_path / "none", *more]
    status, said, err = ends(METRICS, monkeypatch, capsys, *words)
    found = re.search(r'^index_changes_total\{port="1",kind="claim",status="200"\} (\d+)$', said, re.M)
    return status, int(found[1]) if found else None, err


def test_a_run_that_is_ended_at_some_step_counts_nothing_twice_and_loses_nothing(tmp_path, monkeypatch, capsys, log):
    """It puts its state there as a whole."""
    log(line(), line())
    assert run(tmp_path, monkeypatch, capsys) == (0, 2, "")
    log(line())
    for name in "replace", "open", "chmod":
        with monkeypatch.context() as broken:
            if name == "open":
                broken.setattr("builtins.open", broken_open(open, f"{tmp_path}/state.part"))
            else:
                broken.setattr(os, name, raises(OSError(28, "No space left on device")))
            status, _, err = run(tmp_path, broken, capsys, "--out", tmp_path / "out")
        assert (status, "No space left" in err) == (1, True)
    assert run(tmp_path, monkeypatch, capsys) == (0, 3, "")


def broken_open(real, path):
    def opened(name, *words, **more):
        if str(name) == path:
            raise OSError(28, "No space left on device")
        return real(name, *words, **more)
    return opened


@pytest.mark.parametrize("text", ["", "[]", "{}", '{"place":[1],"at":0,"changes":{},"took":{}}',
                                  '{"place":null,"at":0,"changes":[],"took":{}}', "nul"])
def test_a_state_that_can_not_be_read_is_begun_again_and_told(tmp_path, monkeypatch, capsys, log, text):
    log(line())
    (tmp_path / "state").write_text(text)
    status, count, err = run(tmp_path, monkeypatch, capsys)
    assert (status, count) == (0, 1) and "can't be read, and is begun again" in err
    assert run(tmp_path, monkeypatch, capsys) == (0, 1, "")


def test_how_far_the_follower_is_behind(tmp_path, monkeypatch):
    late = iter([None, 0.0, 75.9])
    monkeypatch.setattr(METRICS, "late_by", lambda *_: next(late))
    words = f"{tmp_path}/state", f"{tmp_path}/none", f"{tmp_path}/place"
    found = [[it.value for it in METRICS.changes(*words) if it.name == "index_uncache_behind_seconds"] for _ in "abc"]
    assert found == [[], [0], [75]]
