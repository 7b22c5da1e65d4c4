"""The units of an index in the library of server/, without systemd."""
import os

import pytest
from support.library import ends, units
from support.planted import catches
from support.unit import calls, raises


def test_units_are_started_once_if_they_were_stopped(monkeypatch):
    asked, both = calls(monkeypatch, units, "run"), units.Units(["a", "b"])
    both.start()
    assert not asked
    both.stop()
    both.start()
    both.start()
    assert asked == [("systemctl", "stop", "a", "b"), ("systemctl", "start", "a", "b")]


def test_units_are_started_also_if_their_stop_failed(monkeypatch):
    one = units.Units(["a"])
    monkeypatch.setattr(units, "run", raises(ends.Refused("no")))
    with pytest.raises(ends.Refused):
        one.stop()
    asked = calls(monkeypatch, units, "run")
    one.start()
    assert asked == [("systemctl", "start", "a")]


@catches("server/lib/package_index/units.py", "[] if list(names) == [NO_UNIT] else names", "names",
         also=["server/test_unit_restoring.py::"
               "test_without_a_unit_nothing_is_stopped_or_started_and_the_start_is_left_to_you"])
def test_none_is_no_unit(monkeypatch):
    """As in a container, in which no systemd could be asked."""
    asked, none = calls(monkeypatch, units, "run"), units.Units(["none"])
    none.stop()
    none.start()
    assert none.names == [] and asked == []
    assert units.Units(["none", "a"]).names == ["none", "a"]


def test_a_unit_of_another_database_is_refused(tmp_path, monkeypatch):
    os.symlink(tmp_path, f"{tmp_path}/link")
    db = f"{tmp_path}/index.db"
    commands = {"own": f"{{ path=/x ; argv[]=/x {db} -- /y serve --db {db} ; }}", "none": "",
                "link": f"serve --db {tmp_path}/link/index.db", "other": f"serve --db {db}2", "log": f"serve {db}-wal"}
    monkeypatch.setattr(units, "shown", lambda unit, name: commands[unit] if name == "ExecStart" else "?")
    units.want_units_of(db, ["own", "link", "none"])
    for other in ("other", "log"):
        with pytest.raises(ends.Refused, match=f"{other} does not serve {db}: name its own unit by --unit"):
            units.want_units_of(db, ["own", other])


@catches("server/lib/package_index/units.py", '"index-certificate.timer", "index-uncache-follow.service"]',
         '"index-certificate.timer"]')
@pytest.mark.parametrize("unit, names", [
    ("index.service", ["index.service", "index-backup.timer", "index-health.timer", "index-alarms.timer",
                       "index-certificate.timer", "index-uncache-follow.service"]),
    ("index@8081.service", ["index@8081.service", "index-backup@8081.timer", "index-health@8081.timer",
                            "index-alarms.timer", "index-certificate.timer", "index-uncache-follow.service"]),
    ("mine.service", ["mine.service"]), ("index-page.service", ["index-page.service"])])
def test_the_timers_beside_a_unit_are_those_of_its_index(unit, names):
    assert units.beside(unit) == names


def test_only_what_is_there_and_disabled_is_off_at_the_next_start(monkeypatch):
    states = {"index.service": "enabled", "index-backup.timer": "disabled", "index-health.timer": "", "b": "disabled",
              "index-alarms.timer": "static", "index-certificate.timer": "enabled", "index-uncache-follow.service": ""}
    asked = calls(monkeypatch, units, "shown", lambda unit, name: states[unit])
    assert units.not_enabled(["index.service", "b"]) == ["index-backup.timer", "b"]
    assert {name for _, name in asked} == {"UnitFileState"}


@catches("server/lib/package_index/units.py", "UNITS if is_shared() else []", "[]")
def test_what_index_take_starts_is_enabled_on_none_of_two_machines(monkeypatch):
    calls(monkeypatch, units, "shown", "disabled")
    monkeypatch.setattr(units, "is_shared", lambda: True)
    assert units.not_enabled(["index.service"]) == ["index-alarms.timer", "index-certificate.timer",
                                                    "index-uncache-follow.service"]


def test_a_property_is_asked_of_systemd_and_what_is_enabled_is_told(monkeypatch):
    asked = calls(monkeypatch, units, "run", "disabled\n")
    assert units.shown("a.service", "UnitFileState") == "disabled"
    assert units.enable(["a", "b"]) == "enabled: a b\n"
    assert asked == [("systemctl", "show", "--property=UnitFileState", "--value", "a.service"),
                     ("systemctl", "enable", "--now", "a", "b")]
