"""Which units are off, and which of those that failed are well again."""
import os
from pathlib import Path

import pytest
from support.library import watched
from support.places import SERVER
from support.planted import catches

NOW = 2_000_000_000.0


def systemd(monkeypatch, **units):
    """What systemctl says of units, by their names without ends: `index-health` stands at index_health."""
    def run(*words):
        shown = {it.replace("_", "-"): states for it, states in units.items()}
        return "\n".join("".join(f"{key}={value}\n" for key, value in {"Id": unit, **shown[unit.split(".")[0]]}.items())
                         for unit in words[3:] if unit.split(".")[0] in shown)
    monkeypatch.setattr(watched, "run", run)


@pytest.mark.parametrize("enabled, active, told", [
    ("enabled", "inactive", 1), ("enabled", "active", 0), ("disabled", "inactive", 0), ("enabled", "failed", 0),
    ("enabled", "activating", 0)])
def test_what_is_enabled_and_was_stopped_is_told(monkeypatch, enabled, active, told):
    """What failed has told so itself."""
    states = {"UnitFileState": enabled, "ActiveState": active}
    systemd(monkeypatch, index_health=states, index_page={"UnitFileState": "enabled", "ActiveState": "active"})
    assert [*watched.off(())] == told * ["index-health.timer is enabled and does not run: systemctl start "
                                         "index-health.timer"]
    assert [*watched.off(["index-health.timer"])] == []


@catches("server/lib/package_index/watched.py", '"index-certificate.timer", ', "")
def test_each_timer_that_starts_with_the_machine_is_watched():
    """But for that of the alarms, which nothing would tell of, and those of addresses."""
    timers = [it for it in Path(f"{SERVER}/systemd").glob("*.timer") if "WantedBy=timers.target" in it.read_text()]
    names = {it.name for it in timers if "@" not in it.name}
    assert {it for it in watched.TIMERS if it.endswith(".timer")} == names - {"index-alarms.timer"}


def told_of(folder, *names):
    folder.mkdir(exist_ok=True)
    for name in names:
        (folder / name).touch()
    return str(folder)


WELL, FAILED = {"ActiveState": "inactive", "Result": "success"}, {"ActiveState": "failed", "Result": "exit-code"}
UNDER_WAY = {"ActiveState": "activating", "Result": "success"}


def test_a_unit_is_well_again_after_five_minutes_and_is_told_once(monkeypatch, tmp_path):
    folder = told_of(tmp_path / "told", "index-health.service-9-1", "index-health.service-10-2", "index.service--3")
    systemd(monkeypatch, index_health=WELL, index=FAILED)
    since, said = watched.recovered(folder, {}, NOW)
    assert (since, said) == ({"index-health.service": NOW}, [])
    assert watched.recovered(folder, since, NOW + 299) == (since, [])
    assert watched.recovered(folder, since, NOW + 300) == ({}, ["over: index-health.service is well again"])
    assert os.listdir(folder) == ["index.service--3"]
    assert watched.recovered(folder, {}, NOW + 301) == ({}, [])


@pytest.mark.parametrize("state, since, kept", [
    (FAILED, {"index-health.service": NOW - 299}, {}), (UNDER_WAY, {}, {}),
    (UNDER_WAY, {"index-health.service": NOW - 9}, {"index-health.service": NOW - 9}),
    ({"ActiveState": "active", "Result": "success"}, {}, {"index-health.service": NOW}),
    ({"ActiveState": "inactive", "Result": "timeout"}, {}, {}), ({}, {}, {})])
def test_one_that_fails_each_other_minute_is_not_well(monkeypatch, tmp_path, state, since, kept):
    systemd(monkeypatch, index_health=state)
    assert watched.recovered(told_of(tmp_path / "told", "index-health.service-9-1"), since, NOW) == (kept, [])


def test_what_looks_is_well_itself_as_soon_as_it_comes_so_far(monkeypatch, tmp_path):
    systemd(monkeypatch, index_alarms=UNDER_WAY)
    folder = told_of(tmp_path / "told", "index-alarms.service-1-5")
    assert watched.recovered(folder, {"index-alarms.service": NOW - 300}, NOW)[1] == [
        "over: index-alarms.service is well again"]


def test_without_a_folder_or_with_other_files_nothing_is_asked(monkeypatch, tmp_path):
    monkeypatch.setattr(watched, "run", lambda *_: pytest.fail("systemctl is asked"))
    assert watched.recovered(str(tmp_path / "none"), {"a.service": 1.0}, NOW) == ({}, [])
    assert watched.recovered(told_of(tmp_path / "told", "x", "a.service"), {}, NOW) == ({}, [])


@pytest.mark.parametrize("conf, fronts, elsewhere", [(True, False, False), (False, False, True), (True, True, True)])
def test_whether_changes_come_by_another_nginx(tmp_path, conf, fronts, elsewhere):
    """Whose log of changes is on its own machine."""
    for is_there, name in ((True, "conf.d/x"), (conf, "conf.d/packages.conf"), (fronts, "index/server.d/fronts.conf")):
        if is_there:
            (tmp_path / name).parent.mkdir(parents=True, exist_ok=True)
            (tmp_path / name).touch()
    assert watched.fronts_elsewhere(f"{tmp_path}/conf.d/packages.conf") is elsewhere
