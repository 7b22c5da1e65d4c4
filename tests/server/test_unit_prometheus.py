"""What index-metrics writes, the alarms over it and the dashboard, as Prometheus reads them."""
import json
import re
import sqlite3
import sys

import pytest
from support.places import BIN, TOP
from support.planted import catches
from support.programs import program_of
from support.running import run_command
from support.server.prometheus import DASHBOARD, RULES, families, promtool, rules, tried

METRICS = program_of("index-metrics")
# so many minutes are tried
LAST = 90
PORT = 'instance="i",port="8080"'
HERE = {"instance": "i", "port": "8080"}
# of an index that is well: a value for each minute
WELL = {
    f"index_up{{{PORT}}}": f"1x{LAST}",
    f"index_health_status{{{PORT}}}": f"0x{LAST}",
    f"index_restarts{{{PORT}}}": f"2x{LAST}",
    f"index_written_seconds{{{PORT}}}": f"0+60x{LAST}",
    f'index_changes_total{{{PORT},kind="claim",status="200"}}': f"0+20x{LAST}",
    f'index_changes_total{{{PORT},kind="claim",status="500"}}': f"0x{LAST}",
    f'index_changes_total{{{PORT},kind="claim",status="401"}}': f"0+1x{LAST}",
    f'index_change_seconds_bucket{{{PORT},of="others",le="1.0"}}': f"0+20x{LAST}",
    f'index_change_seconds_bucket{{{PORT},of="others",le="10.0"}}': f"0+20x{LAST}",
    f'index_change_seconds_bucket{{{PORT},of="others",le="+Inf"}}': f"0+20x{LAST}",
    f"index_uncache_behind_seconds{{{PORT}}}": f"0x{LAST}",
    f"index_backup_newest_seconds{{{PORT}}}": f"0+60x{LAST}",
    f"index_backup_parts{{{PORT}}}": f"0x{LAST}",
    f"index_punch_newest_seconds{{{PORT}}}": f"0+60x{LAST}",
    f"index_punch_kept_bytes{{{PORT}}}": f"0x{LAST}",
    f'index_room_bytes{{{PORT},of="database"}}': f"9000000000x{LAST}",
    f'index_room_bytes{{{PORT},of="backups"}}': f"9000000000x{LAST}",
    f"index_database_bytes{{{PORT}}}": f"5000000000x{LAST}",
    f"index_certificate_end_seconds{{{PORT}}}": f"9000000x{LAST}",
    f"index_damaged_logs{{{PORT}}}": f"0x{LAST}",
}
REFUSED = f'index_changes_total{{{PORT},kind="claim",status="401"}}'
# what is otherwise, and which alarms are raised, with the labels that they have beside the index's
CASES = {
    "well": ({}, []),
    "down": ({f"index_up{{{PORT}}}": f"1x{LAST - 10} 0x10"}, [("IndexDown", {})]),
    "not written": ({f"index_written_seconds{{{PORT}}}": f"0x{LAST}"}, [("IndexDown", {})]),
    "starts": ({f"index_restarts{{{PORT}}}": f"2x{LAST - 20} 3+1x20"}, [("IndexDown", {})]),
    "disk": ({f"index_health_status{{{PORT}}}": f"0x{LAST - 5} 9x5"}, [("IndexDiskShort", {})]),
    "nginx": ({f"index_health_status{{{PORT}}}": f"0x{LAST - 5} 10x5"}, [("IndexFrontDown", {})]),
    "both": ({f"index_health_status{{{PORT}}}": f"0x{LAST - 5} 11x5"},
             [("IndexDiskShort", {}), ("IndexFrontDown", {})]),
    "fails": ({f'index_changes_total{{{PORT},kind="claim",status="500"}}': f"0x{LAST - 5} 1x5"},
              [("IndexChangesFail", {})]),
    "refused": ({REFUSED: f"0x{LAST - 30} 4+4x40"}, [("IndexChangesRefused", {})]),
    # a tenth of what came in the hours before
    "refused as ever": ({REFUSED: "0+100x25 2500+4x70"}, []),
    "slow": ({f'index_change_seconds_bucket{{{PORT},of="others",le="1.0"}}': f"0+15x{LAST}"}, [("IndexSlow", {})]),
    "a few slow": ({f'index_change_seconds_bucket{{{PORT},of="others",le="1.0"}}': f"0+19x{LAST}"}, []),
    "behind": ({f"index_uncache_behind_seconds{{{PORT}}}": f"0x{LAST - 3} 121x3"}, [("IndexUncacheBehind", {})]),
    "no copy": ({f"index_backup_newest_seconds{{{PORT}}}": f"{-26 * 3600}x{LAST}"}, [("IndexBackupOld", {})]),
    "a copy that failed": ({f"index_backup_parts{{{PORT}}}": f"1x{LAST}"}, [("IndexBackupOld", {})]),
    "not punched": ({f"index_punch_newest_seconds{{{PORT}}}": f"{-50 * 3600}x{LAST}"}, [("IndexPunchOld", {})]),
    "no holes": ({f"index_punch_kept_bytes{{{PORT}}}": f"4096x{LAST}"}, [("IndexPunchOld", {})]),
    "little room": ({f'index_room_bytes{{{PORT},of="nginx"}}': f"3900000000x{LAST}"},
                    [("IndexDiskFull", {"of": "nginx"})]),
    "no room for a copy": ({f'index_room_bytes{{{PORT},of="backups"}}': f"5900000000x{LAST}"},
                           [("IndexDiskFull", {"of": "backups"})]),
    "no room for the first copy of a volume": (
        {f'index_room_bytes{{{PORT},of="backups"}}': f"11900000000x{LAST}",
         f"index_volume_bytes{{{PORT}}}": f"10000000000x{LAST}", f"index_volume_copies_bytes{{{PORT}}}": f"0x{LAST}"},
        [("IndexDiskFull", {"of": "backups"})]),
    "room for what is added to it": (
        {f'index_room_bytes{{{PORT},of="backups"}}': f"11900000000x{LAST}",
         f"index_volume_bytes{{{PORT}}}": f"10000000000x{LAST}",
         f"index_volume_copies_bytes{{{PORT}}}": f"9000000000x{LAST}"}, []),
    "certificate": ({f"index_certificate_end_seconds{{{PORT}}}": f"{14 * 86400}x{LAST}"},
                    [("IndexCertificateEnds", {})]),
    "damaged": ({f"index_damaged_logs{{{PORT}}}": f"1x{LAST}"}, [("IndexLogDamaged", {})]),
}


@pytest.mark.slow
@pytest.mark.told("one of ten changes takes more than 5 s")
@pytest.mark.parametrize("case", CASES)
def test_each_alarm_is_raised_by_its_condition_and_by_no_other(tmp_path, case):
    other, raised = CASES[case]
    alarms = [{"alertname": name, **HERE, **labels} for name, labels in raised]
    assert not tried(str(tmp_path), {**WELL, **other}, LAST, alarms)


def test_an_index_that_is_not_measured_at_all_is_told(tmp_path):
    assert not tried(str(tmp_path), {}, LAST, [{"alertname": "IndexDown"}])


def test_each_alarm_has_a_case():
    assert {name for _, raised in CASES.values() for name, _ in raised} == {it.name for it in rules()}


def test_prometheus_reads_the_rules():
    ended = promtool("check", "rules", RULES)
    assert ended.returncode == 0 and f"{len(rules())} rules found" in ended.stdout, ended.stdout


def test_each_alarm_leads_to_its_row_of_what_can_go_wrong():
    with open(f"{TOP}/docs/operators/OPERATING.md", encoding="utf-8") as kept:
        page = kept.read()
    rows = re.findall(r"^\| (.*?) \| ", page.partition("\n## What can go wrong\n")[2].partition("\n## ")[0], re.M)
    for rule in rules():
        assert rule.severity in ("critical", "warning") and set(rule.texts) == {"summary", "row", "runbook_url"}
        assert sum(it.startswith(rule.texts["row"]) for it in rows) == 1, rule
        assert rule.texts["runbook_url"].endswith("/operators/OPERATING.md#what-can-go-wrong")


@pytest.fixture
def written(tmp_path):
    """What is written of a copy, a log and a follower, with all that can be measured here."""
    (tmp_path / "copies").mkdir()
    (tmp_path / "bodies").mkdir()
    (tmp_path / "bodies/1").write_text("12345")
    with sqlite3.connect(tmp_path / "copies/index-20260101T000000Z.db") as db:
        db.execute("CREATE TABLE names (state, live, charged, quota)")
        db.execute("CREATE TABLE users (user)")
    log = {"at": "2026-01-01T00:00:00+00:00", "status": 200, "reached": True, "took": 0.2, "method": "PUT", "path": "/"}
    (tmp_path / "changes.log").write_text(json.dumps(log) + "\n" + json.dumps({**log, "status": 404}) + "\n")
    (tmp_path / "index.db").write_text("x")
    words = [tmp_path / "index.db", tmp_path / "copies", "--url", "http://127.0.0.1:1", "--state", tmp_path / "state",
             "--changes", tmp_path / "changes.log", "--bodies", tmp_path / "bodies", "--place", tmp_path / "none",
             "--punched", tmp_path]
    (tmp_path / "last").write_text('{"began": 1234.5, "above": 7, "kept": 9}')
    ended = run_command([sys.executable, f"{BIN}/index-metrics", *map(str, words)])
    assert ended.returncode == 0
    return ended.stdout


def test_prometheus_reads_what_is_written_without_a_complaint(written):
    ended = promtool("check", "metrics", said=written)
    assert (ended.returncode, ended.stdout) == (0, "")


@catches("server/lib/package_index/counted.py", "list(map(int, accumulate(each)))", "list(map(int, each))")
@catches("server/lib/package_index/exposition.py", r"\n# TYPE {name} {known[name][0]}\n", r"\n")
def test_what_is_written_keeps_to_the_format(written):
    found = families(written)
    assert found["index_bodies_bytes"] == ("gauge", [("index_bodies_bytes", 'port="1"', 5.0)])
    took = {(name, labels): value for name, labels, value in found["index_change_seconds"][1] if "uploads" in labels}
    assert took["index_change_seconds_count", 'port="1",of="uploads"'] == 2
    assert took["index_change_seconds_sum", 'port="1",of="uploads"'] == 0.4
    assert took["index_change_seconds_bucket", 'port="1",of="uploads",le="0.1"'] == 0
    assert took["index_change_seconds_bucket", 'port="1",of="uploads",le="0.25"'] == 2
    counts = {labels: value for _, labels, value in found["index_changes_total"][1]}
    assert {labels: value for labels, value in counts.items() if value} == {
        'port="1",kind="upload",status="200"': 1, 'port="1",kind="upload",status="404"': 1}
    assert counts['port="1",kind="claim",status="500"'] == 0


@catches("server/bin/index-metrics", "    yield from punches(words.punched)\n", "")
def test_what_was_punched_is_written(written):
    values = {name: value for name, (_, [(_, _, value), *_]) in families(written).items() if "punch" in name}
    assert values == {"index_punch_newest_seconds": 1234, "index_punch_above_bytes": 7, "index_punch_kept_bytes": 9}


def names_in(text):
    """The metrics of an expression, without the ends that a histogram's lines have."""
    known = METRICS.KNOWN
    found = set(re.findall(r"\bindex_[a-z_]+", text))
    return {re.sub("_(bucket|sum|count)$", "", it) if it not in known else it for it in found}


def test_the_dashboard_asks_for_what_is_written_and_each_figure_is_shown_or_alarmed(tmp_path):
    with open(DASHBOARD, encoding="utf-8") as kept:
        board = json.load(kept)
    asked = [target["expr"] for panel in board["panels"] for target in panel["targets"]]
    with open(RULES, encoding="utf-8") as kept:
        alarmed = names_in(kept.read())
    assert set().union(*map(names_in, asked)) | alarmed == set(METRICS.KNOWN)
    text = [{"record": "a:b", "expr": it.replace("$__rate_interval", "5m").replace("$", "")} for it in asked]
    (tmp_path / "rules.json").write_text(json.dumps({"groups": [{"name": "x", "rules": [
        {**it, "labels": {"at": str(at)}} for at, it in enumerate(text)]}]}))
    ended = promtool("check", "rules", str(tmp_path / "rules.json"))
    assert ended.returncode == 0, ended.stdout


def test_the_panels_of_the_dashboard_stand_beside_each_other():
    with open(DASHBOARD, encoding="utf-8") as kept:
        board = json.load(kept)
    taken = set()
    for panel in board["panels"]:
        at = panel["gridPos"]
        cells = {(x, y) for x in range(at["x"], at["x"] + at["w"]) for y in range(at["y"], at["y"] + at["h"])}
        assert at["x"] + at["w"] <= 24 and not cells & taken, panel["title"]
        taken |= cells
    assert len({panel["id"] for panel in board["panels"]}) == len(board["panels"])
    assert {it["name"] for it in board["templating"]["list"]} == {"datasource", "instance", "port"}
