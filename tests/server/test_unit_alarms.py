"""What index-alarms keeps from look to look."""
import json
import types

import pytest
from support.library import two_machines
from support.planted import catches
from support.programs import program_of

ALARMS = program_of("index-alarms")
NOW, DAY = 2_000_000_000.0, 86_400


def look(at):
    return ALARMS.looks.Look(at, "a", 5e6, {}, {})


@pytest.mark.parametrize("begun, kept", [(NOW - 9 * DAY, NOW - 9 * DAY), (NOW, NOW), (NOW + 5, NOW)])
def test_the_first_look_is_not_forgotten_and_never_later_than_now(begun, kept):
    assert ALARMS.after(ALARMS.State(begun, [], {}), look(NOW), []).begun == kept


def test_the_looks_of_a_day_are_kept_in_their_order():
    day = [look(NOW - DAY - 1), look(NOW - DAY), look(NOW - 5), look(NOW + 5)]
    assert [it.at for it in ALARMS.after(ALARMS.State(0, day, {}), look(NOW), []).day] == [NOW - DAY, NOW - 5, NOW]


def raised(at, seen=NOW - 5, text="before"):
    return ALARMS.Raised(at, seen, text)


@pytest.mark.parametrize("before, kept", [
    ({}, NOW), ({"disk": raised(NOW - 5)}, NOW - 5), ({"disk": raised(NOW - DAY + 1)}, NOW - DAY + 1),
    ({"disk": raised(NOW - DAY)}, NOW), ({"disk": raised(NOW + 5)}, NOW), ({"clock": raised(NOW - 5)}, NOW)])
def test_an_alarm_is_raised_again_after_a_day_or_if_its_moment_is_later_than_now(before, kept):
    found = [ALARMS.Alarm("disk", text) for text in ("a", "b")]
    assert ALARMS.after(ALARMS.State(0, [], before), look(NOW), found).raised == {"disk": raised(kept, NOW, "b")}


@pytest.mark.parametrize("kind, seen, said", [
    ("disk", 599, []), ("disk", 600, ["over: before"]), ("disk", -1, ["over: before"]), ("clock", 5, []),
    ("restarts", 9999, [])])
def test_an_alarm_is_over_once_it_is_gone_for_ten_minutes_and_an_event_never_is(kind, seen, said):
    """One that comes and goes each other minute is the same alarm, and no mail each time."""
    before = ALARMS.State(0, [], {kind: raised(NOW - 9000, NOW - seen)})
    kept = ALARMS.after(before, look(NOW), [])
    assert ALARMS.over(before, kept) == said and (kind in kept.raised) == (not said and kind == "disk")


def test_looks_that_are_kept_are_ten_minutes_apart_but_for_the_last():
    state = ALARMS.State(0, [], {})
    for minute in range(25):
        state = ALARMS.after(state, look(NOW + 60 * minute), [])
    assert [(it.at - NOW) / 60 for it in state.day] == [0, 10, 20, 24]


@pytest.mark.parametrize("ups, then", [([5e6 - 60], 5e6 - 60), ([5e6 - 1200, 5e6 - 600, 5e6 - 60], 5e6 - 600),
                                       ([5e6 - 1200, 5e6 - 60], 5e6 - 1200), ([], 5e6)])
def test_restarts_are_counted_over_ten_minutes_of_one_start_of_the_machine(ups, then):
    other = look(NOW - 3000)._replace(boot="b", up=5e6 - 3000)
    assert ALARMS.earlier([other, *(look(NOW)._replace(up=it) for it in ups)], look(NOW)).up == then


def test_the_state_of_an_older_version_is_read(tmp_path):
    (tmp_path / "state").write_text('{"begun": 5, "day": [[1, "a", 2, {}, {}]], "raised": {"disk": 7}}')
    assert ALARMS.read(str(tmp_path / "state"), NOW) == ALARMS.State(
        5, [ALARMS.looks.Look(1, "a", 2, {}, {})], {"disk": ALARMS.Raised(7, 7, "")})


def test_what_is_kept_is_read_again(tmp_path):
    kept = ALARMS.State(5, [look(NOW)], {"disk": raised(7)},
                        ALARMS.Tally(ALARMS.Place(3, 4, "5e"), {"33": [1, 2, 3]}), {"index.service": 9.0})
    (tmp_path / "state").write_text(json.dumps(kept._asdict()))
    assert ALARMS.read(str(tmp_path / "state"), NOW) == kept


def test_restarts_are_whole_numbers_by_their_units(monkeypatch):
    monkeypatch.setattr(ALARMS, "run", lambda *_: "index.service loaded active\n\nindex@1.service loaded failed\nx y\n")
    monkeypatch.setattr(ALARMS, "shown", lambda unit, _: {"index.service": "2", "index@1.service": "0"}.get(unit, ""))
    found = ALARMS.restarts()
    assert found == {"index.service": 2, "index@1.service": 0} and {*map(type, found.values())} == {int}


@catches("server/bin/index-alarms", "() if index_is_elsewhere() else", "", case="True-False-kinds0")
@catches("server/lib/package_index/two_machines.py", "is_shared() and not os.path.ismount(FOLDER)", "is_shared()",
         case="True-True-kinds1")
@pytest.mark.parametrize("is_shared, is_mounted, kinds", [
    (True, False, []), (True, True, ["backup"]), (False, False, ["backup"]), (False, True, ["backup"])])
def test_a_late_backup_is_told_where_the_index_is(monkeypatch, tmp_path, is_shared, is_mounted, kinds):
    """The one of two machines that waits has no disk of the index, and so it makes no copies."""
    monkeypatch.setattr(two_machines, "DROP_IN", str(tmp_path / ("" if is_shared else "none")))
    monkeypatch.setattr(two_machines, "FOLDER", "/" if is_mounted else str(tmp_path))
    monkeypatch.setattr(ALARMS, "off", lambda _: [])
    words = types.SimpleNamespace(backups=str(tmp_path), changes=f"{tmp_path}/log", nginx=f"{tmp_path}/none",
                                  place=f"{tmp_path}/place", db=f"{tmp_path}/index.db", notes=f"{tmp_path}/notes",
                                  banned=[])
    found = ALARMS.alarms(words, ALARMS.State(NOW - 9 * DAY, [], {}), look(NOW))
    assert [it.kind for it in found] == kinds
