"""A whole restore by index-restore, without the program: what it does in which order, and what it tells."""
import datetime
import os
import shutil
import signal
import sys
import time
import types

import pytest
from support.library import ends as library_ends
from support.library import exchange
from support.library import units as library_units
from support.planted import catches
from support.programs import program_of
from support.running import run_command
from support.server.caches import keys, make_cache
from support.server.expected import assert_ends
from support.server.stand_ins import called, stand_ins
from support.unit import calls, ends, raises, with_time

RESTORE = program_of("index-restore")
Refused = library_ends.Refused
DATABASE = b"SQLite format 3\0"
UTC = datetime.timezone.utc


class World:
    """A database, a copy beside it in another folder, and the words of a restore; nothing is stopped or tested."""

    def __init__(self, tmp_path, monkeypatch, **changed):
        self.folder, self.order = tmp_path / "var", []
        os.mkdir(self.folder)
        os.mkdir(tmp_path / "copies")
        self.db, self.copy = str(self.folder / "index.db"), str(tmp_path / "copies" / "index-20260101T000000Z.db")
        for path, text in ((self.db, "old"), (f"{self.db}-wal", "log"), (self.copy, "new")):
            with open(path, "wb") as made:
                made.write(DATABASE + text.encode())
        (tmp_path / "pypi.conf").touch()
        self.words = types.SimpleNamespace(**{
            "copy": self.copy, "older": False, "complete": False, "url": "http://x:1", "cache": ["/c/"],
            "db": RESTORE.DB, "unit": None,
            "changes": [str(tmp_path / "changes.log")], "with_pypi": str(tmp_path / "pypi.conf"), **changed})
        self.units = RESTORE.Units(["a.service"])
        for module in (RESTORE, library_units):
            monkeypatch.setattr(module, "run", lambda *it: self.order.append(" ".join(it)))
        monkeypatch.setattr(library_units, "shown", lambda *_: "")
        # (the signals of a test belong to pytest)
        monkeypatch.setattr(RESTORE, "ignore_signals", lambda: self.order.append("ignore"))
        monkeypatch.setattr(RESTORE, "empty_cache", lambda it: self.order.append(f"empty {it}"))
        monkeypatch.setattr(RESTORE, "look_at_index", lambda *_: None)
        monkeypatch.setattr(RESTORE, "first_answer", lambda url, length: f"{url} {length}")

    def into_place(self):
        RESTORE.put_into_place(self.words, self.db, self.units, f"{self.folder}/restoring-now",
                               f"{self.folder}/before-now")

    def restored(self):
        RESTORE.restore(self.words, self.db, self.units)

    def is_as_before(self):
        with open(self.db, "rb") as kept:
            return kept.read() == DATABASE + b"old" and sorted(os.listdir(self.folder)) == ["index.db", "index.db-wal"]


def test_a_copy_is_tested_before_the_units_stop_and_caches_are_emptied_last(tmp_path, monkeypatch):
    world = World(tmp_path, monkeypatch)
    world.restored()
    tested = world.order.pop(0)
    assert tested.startswith(f"{RESTORE.HERE}/index-verify /proc/{os.getpid()}/fd/")
    assert world.order == ["systemctl stop a.service", "systemctl try-reload-or-restart nginx.service", "ignore",
                           "empty /c", "systemctl start a.service"]
    aside, = world.folder.glob("before-*")
    assert sorted(os.listdir(world.folder)) == [aside.name, "index.db"]
    assert sorted(os.listdir(aside)) == ["forgotten", "index.db", "index.db-wal"]
    assert not signal.pthread_sigmask(signal.SIG_BLOCK, []) & set(library_ends.SIGNALS)


@catches("server/lib/package_index/exchange.py", 'if not is_there(f"{folder}/before-{stamp}"):', "if stamp:")
def test_of_two_restores_within_a_second_the_later_one_waits_for_a_name(tmp_path, monkeypatch):
    """The folder of what the first put aside would be that of the second."""
    world, now = World(tmp_path, monkeypatch), [1_000_000_000.0]
    with_time(monkeypatch, exchange, gmtime=lambda: time.gmtime(now[0]))
    with_time(monkeypatch, exchange, sleep=lambda seconds: now.append(now.pop() + seconds))
    for _ in range(2):
        world.restored()
    assert sorted(it.name for it in world.folder.glob("before-*")) == ["before-20010909T014640Z",
                                                                        "before-20010909T014641Z"]


@catches("server/bin/index-restore", "at = own(aside)", "at = aside",
         ("server/bin/index-restore", 'open(f"{own(aside)}/forgotten", "w")', 'open(f"{aside}/forgotten", "w")'))
def test_what_is_forgotten_is_not_written_where_a_link_leads(tmp_path, monkeypatch, capsys):
    """The user of the index may put one in the place of what was put aside, as soon as the index runs again."""
    world, elsewhere = World(tmp_path, monkeypatch), tmp_path / "elsewhere"
    elsewhere.mkdir()
    (tmp_path / "changes.log").write_text("{}\n")

    def first_answer(*_):
        aside, = world.folder.glob("before-*")
        aside.rename(world.folder / "moved")
        aside.symlink_to(elsewhere)
        return ""

    monkeypatch.setattr(RESTORE, "first_answer", first_answer)
    world.restored()
    assert not os.listdir(elsewhere)
    assert "They could not be gathered from" in capsys.readouterr().out


def test_nobody_stops_a_restore_while_files_are_moved(tmp_path, monkeypatch):
    world, seen, masked = World(tmp_path, monkeypatch), [], set(library_ends.SIGNALS)
    monkeypatch.setattr(RESTORE, "exchange",
                        lambda *_: seen.append(signal.pthread_sigmask(signal.SIG_BLOCK, []) >= masked))
    world.into_place()
    assert seen == [True]


@pytest.mark.parametrize("end", [Refused("no"), OSError("full")])
def test_an_exchange_that_fails_puts_pypi_back_and_leaves_no_copy(tmp_path, monkeypatch, end):
    world = World(tmp_path, monkeypatch)
    monkeypatch.setattr(RESTORE, "exchange", raises(end))
    with pytest.raises(type(end)):
        world.restored()
    assert world.is_as_before() and (tmp_path / "pypi.conf").exists()
    assert not signal.pthread_sigmask(signal.SIG_BLOCK, []) & set(library_ends.SIGNALS)


def test_a_copy_that_can_not_be_put_beside_is_told_and_stops_nothing(tmp_path, monkeypatch):
    world = World(tmp_path, monkeypatch)
    monkeypatch.setattr(RESTORE, "put_beside", raises(Refused("no such copy")))
    with pytest.raises(Refused, match="no such copy"):
        world.restored()
    assert world.is_as_before() and not world.order and not world.units.are_stopped


def test_a_copy_that_is_complete_leaves_pypi_on(tmp_path, monkeypatch, capsys):
    world = World(tmp_path, monkeypatch, complete=True)
    monkeypatch.setattr(RESTORE, "want_complete", lambda *_: None)
    world.restored()
    assert (tmp_path / "pypi.conf").exists() and "systemctl try-reload-or-restart nginx.service" not in world.order
    assert capsys.readouterr().out.endswith("the index answers: http://x:1 19\n")


@pytest.mark.parametrize("looks", [1, 2])
def test_that_a_copy_is_complete_is_looked_at_before_and_after_the_units_stop(tmp_path, monkeypatch, looks):
    world, seen = World(tmp_path, monkeypatch, complete=True), []

    def want_complete(*_):
        seen.append(world.units.are_stopped)
        if len(seen) == looks:
            raise Refused("written after")

    monkeypatch.setattr(RESTORE, "want_complete", want_complete)
    with pytest.raises(Refused, match="written after"):
        world.restored()
    # the second look comes once nobody writes any more
    assert world.is_as_before() and seen == [False, True][:looks]


def test_the_usual_caches_are_emptied_if_none_is_named(tmp_path, monkeypatch):
    world = World(tmp_path, monkeypatch, cache=None)
    world.restored()
    assert world.order[-3:-1] == [f"empty {it}" for it in RESTORE.CACHES]


def test_a_restore_tells_what_it_forgets(tmp_path, monkeypatch, capsys):
    world = World(tmp_path, monkeypatch)
    (world.folder / "restoring-before").mkdir()
    (tmp_path / "changes.log").write_text('{"body":"x"}\n')
    world.restored()
    said = capsys.readouterr().out
    aside, = world.folder.glob("before-*")
    assert "1. Changes since 2026-01-01 00:00:00 UTC.\n   nginx passed on 1 of them." in said
    assert f"index-restore {aside}/index.db\n" in said and "PyPI was taken off" in said
    assert "systemctl start a.service" in world.order and not (world.folder / "restoring-before").exists()
    assert said.startswith(f"{world.copy} is in its place; what was there is in {aside}\n")
    assert (aside / "changes").exists() and said.endswith((aside / "forgotten").read_text())


@catches("server/bin/index-restore", 'return "" if is_here else ELSEWHERE.format(',
         'return "" if words else ELSEWHERE.format(',
         also=["server/test_restores.py::TestChangesSince::test_each_nginx_has_a_log_of_its_own"])
def test_what_to_do_on_other_machines_of_nginx_is_told(tmp_path, monkeypatch, capsys):
    cache = make_cache(str(tmp_path / "cache"), [("frob", "frob-1.zip")])
    world = World(tmp_path, monkeypatch, cache=[cache])
    world.restored()
    assert "5. nginx on other" not in capsys.readouterr().out
    world.words.changes *= 2
    told = RESTORE.forgotten(world.words, str(tmp_path)).split("5. nginx on other machines.")[1].splitlines()
    (tmp_path / "pypi.conf").touch()
    path = stand_ins(f"{tmp_path}/bin", systemctl="exit 0")
    # a second time too
    for _ in range(2):
        assert_ends(run_command(["sh", "-ec", "\n".join(told[1:3])], PATH=path), 0)
        assert keys(cache) == [] and os.path.isdir(cache) and not (tmp_path / "pypi.conf").exists()
    assert called(f"{tmp_path}/bin") == "systemctl reload nginx\n" and (tmp_path / "pypi.conf.off").exists()
    world.words.cache, world.words.changes = [f"{tmp_path}/none"], None
    assert f"find {tmp_path}/none -type f" in RESTORE.elsewhere(world.words)


@pytest.mark.parametrize("fails", ["empty_cache", "first_answer"])
def test_what_it_forgets_is_told_also_if_a_later_step_fails(tmp_path, monkeypatch, capsys, fails):
    world = World(tmp_path, monkeypatch)
    monkeypatch.setattr(RESTORE, fails, raises(Refused("no")))
    with pytest.raises(Refused, match="no"):
        world.restored()
    assert "1. Changes since 2026-01-01" in capsys.readouterr().out


def test_the_folder_of_the_old_files_is_named_by_the_moment_in_utc(tmp_path, monkeypatch):
    world = World(tmp_path, monkeypatch)
    monkeypatch.setenv("TZ", "Asia/Tokyo")
    RESTORE.time.tzset()
    before = datetime.datetime.now(UTC).replace(microsecond=0)
    RESTORE.restore(world.words, world.db, world.units)
    monkeypatch.delenv("TZ")
    RESTORE.time.tzset()
    aside, = world.folder.glob("before-*")
    stamp = datetime.datetime.strptime(f"{aside.name}+0000", "before-%Y%m%dT%H%M%SZ%z")
    assert before <= stamp <= datetime.datetime.now(UTC)


def test_changes_that_can_not_be_gathered_are_told(tmp_path, monkeypatch, capsys):
    world = World(tmp_path, monkeypatch)
    monkeypatch.setattr(RESTORE, "changes_since", raises(OSError("a bad block")))
    world.restored()
    assert f"They could not be gathered from {world.words.changes[0]}: a bad block" in capsys.readouterr().out


def test_room_is_wanted_for_the_copy_and_its_log_twice(tmp_path, monkeypatch):
    world = World(tmp_path, monkeypatch)
    with open(f"{world.copy}-wal", "wb") as log:
        log.write(bytes(5))
    asked = calls(monkeypatch, RESTORE, "want_room", raises(Refused("no room")))
    with pytest.raises(Refused, match="no room"):
        RESTORE.restore(world.words, world.db, world.units)
    assert asked == [(str(world.folder), len(DATABASE) + 3 + 10)] and world.is_as_before() and not world.order


def test_a_database_in_no_folder_is_told(tmp_path, monkeypatch):
    world = World(tmp_path, monkeypatch)
    with pytest.raises(Refused, match="/none: no such folder"):
        RESTORE.restore(world.words, "/none/index.db", world.units)


def test_units_start_however_it_ends(monkeypatch, capsys):
    def stops(words, db, units):
        units.stop()
        raise Refused("no")

    asked = calls(monkeypatch, library_units, "run")
    monkeypatch.setattr(RESTORE, "restore", stops)
    assert ends(RESTORE, monkeypatch, capsys, "copy")[::2] == (1, "index-restore: no\n")
    # and not the check of health, which tells of a restore that is killed
    assert asked == [("systemctl", it, "index.service") for it in ("stop", "start")]
    asked.clear()
    ends(RESTORE, monkeypatch, capsys, "copy", "--unit", "a", "--unit", "b")
    assert asked == [("systemctl", it, "a", "b") for it in ("stop", "start")]


def test_who_interrupts_is_told_what_is_there(monkeypatch, capsys):
    monkeypatch.setattr(RESTORE, "restore", raises(RESTORE.Interrupted(2)))
    monkeypatch.setattr(sys, "argv", ["index-restore", "copy"])
    before = os.umask(0o022)
    with pytest.raises(RESTORE.Interrupted):
        RESTORE.main()
    os.umask(before)
    assert capsys.readouterr().err == "index-restore: nothing was restored: what was there is in its place\n"


def test_units_that_do_not_start_are_told(monkeypatch, capsys):
    def stopped(words, db, units):
        units.are_stopped = True
        print("all is well")

    monkeypatch.setattr(RESTORE, "restore", stopped)
    monkeypatch.setattr(library_units, "run", raises(Refused("it hangs")))
    assert ends(RESTORE, monkeypatch, capsys, "copy") == (1, "all is well\n", "index-restore: it hangs\n")


def test_the_words_of_a_restore(tmp_path, monkeypatch, capsys):
    os.symlink(tmp_path / "real.db", tmp_path / "link.db")
    asked = calls(monkeypatch, RESTORE, "restore")
    before = os.umask(0o022)
    assert ends(RESTORE, monkeypatch, capsys, "copy", "--db", tmp_path / "link.db")[0] == 0
    assert os.umask(before) == 0o077
    words, db, _ = asked[0]
    assert (db, words.older, words.complete, words.cache) == (str(tmp_path / "real.db"), False, False, None)
    ends(RESTORE, monkeypatch, capsys, "copy", "--older", "--complete", "--cache", "a", "--cache", "b")
    words, db, _ = asked[1]
    assert (db, words.older, words.complete, words.cache) == ("/var/lib/index/index.db", True, True, ["a", "b"])
    os.umask(before)


def test_the_way_back_is_to_the_newest_that_was_put_aside(tmp_path, monkeypatch):
    names = [f"{tmp_path}/before-2026010{day}T000000Z/index.db" for day in (2, 3, 1)]
    monkeypatch.setattr(RESTORE.glob, "glob", lambda _: names)
    words = types.SimpleNamespace(db=RESTORE.DB, unit=None)
    assert f"To go back to it: index-restore {names[1]}\n" in RESTORE.way_back(words, f"{tmp_path}/before-now")


@catches("server/bin/index-restore", 'its = "" if words.db == DB and not words.unit else', 'its = "" if words else')
@pytest.mark.parametrize("is_there", [True, False])
def test_the_way_back_of_one_of_several_indexes_is_to_itself(tmp_path, monkeypatch, is_there):
    """Without its options the line that is printed would have it take the place of another index."""
    (tmp_path / "index.db").touch()
    monkeypatch.setattr(RESTORE.glob, "glob", lambda _: [f"{tmp_path}/index.db"])
    words = types.SimpleNamespace(db="/var/lib/index/8081/index.db", url="http://x:8081", unit=["index@8081.service"])
    said = RESTORE.way_back(words, str(tmp_path) if is_there else f"{tmp_path}/none")
    assert said.endswith(": index-restore --db /var/lib/index/8081/index.db --url http://x:8081 --unit "
                         f"index@8081.service {tmp_path}/index.db\n")


def test_the_way_back_is_without_a_unit_if_the_restore_was(tmp_path):
    (tmp_path / "index.db").touch()
    words = types.SimpleNamespace(db=RESTORE.DB, url="http://x:1", unit=["none"])
    said = RESTORE.way_back(words, str(tmp_path))
    assert f"index-restore --db {RESTORE.DB} --url http://x:1 --unit none {tmp_path}/index.db\n" in said


def test_without_a_unit_nothing_is_stopped_or_started_and_the_start_is_left_to_you(tmp_path, monkeypatch, capsys):
    world = World(tmp_path, monkeypatch, unit=["none"])
    world.units = RESTORE.Units(["none"])
    world.restored()
    said = capsys.readouterr().out
    assert "is in its place; what was there is in " in said
    assert "start the index now: --unit none starts nothing\n" in said
    assert not [it for it in world.order if "systemctl" in it] and f"empty {world.words.cache[0][:-1]}" in world.order
    # nginx is not told, but its file is away before the next one starts
    assert not os.path.exists(world.words.with_pypi) and "PyPI was taken off" in said


@catches("server/bin/index-restore", "if os.geteuid() == 0:", "if made:")
def test_who_is_not_root_gives_the_copy_to_nobody(tmp_path, monkeypatch):
    """On a disk whose folder is another user's, as in a container, no other owner could be set."""
    world = World(tmp_path, monkeypatch)
    monkeypatch.setattr(os, "geteuid", lambda: os.stat(tmp_path).st_uid or 1)
    monkeypatch.setattr(os, "chown", raises(PermissionError("no")))
    monkeypatch.setattr(RESTORE, "made_own", lambda folder: os.mkdir(folder) or folder)
    shutil.copy(world.copy, tmp_path / "index.db")
    monkeypatch.setattr(RESTORE, "copy_file", shutil.copy)
    RESTORE.put_beside(world.copy, str(tmp_path / "beside"), os.stat(tmp_path))
    assert os.listdir(tmp_path / "beside") == ["index.db"]


def test_restores_that_were_killed_are_told_the_oldest_first(tmp_path, monkeypatch, capsys):
    world = World(tmp_path, monkeypatch)
    notes = [f"{world.folder}/before-{at}/unfinished" for at in (2, 3, 1)]
    for note in notes:
        os.mkdir(os.path.dirname(note))
        with open(note, "w") as made:
            made.write("another copy")
    monkeypatch.setattr(RESTORE.glob, "glob", lambda pattern: notes if pattern.endswith("unfinished") else [])
    assert RESTORE.left_by_a_kill(str(world.folder), world.db, world.copy) is None
    assert [it[-1] for it in capsys.readouterr().out.splitlines()] == ["1", "2", "3"]
    assert not any(map(os.path.exists, notes))


@pytest.mark.parametrize("is_undone, said", [(True, "they have their names again"),
                                             (False, "its copy is not in place")])
def test_a_restore_that_was_killed_while_it_moved_files_is_undone_and_told(tmp_path, monkeypatch, capsys, is_undone,
                                                                          said):
    world = World(tmp_path, monkeypatch)
    for name in ("restoring-1", "before-1"):
        os.mkdir(world.folder / name)
    (world.folder / "restoring-1" / "index.db").touch()
    (world.folder / "before-1" / "unfinished").write_text("x")
    monkeypatch.setattr(RESTORE, "put_names_back", lambda *_: is_undone)
    asked = calls(monkeypatch, RESTORE, "forget")
    monkeypatch.setattr(RESTORE.glob, "glob", lambda it: [f"{world.folder}/restoring-1"] if "restoring" in it else [])
    assert RESTORE.left_by_a_kill(str(world.folder), world.db, world.copy) is None
    assert said in capsys.readouterr().out and asked == ([] if is_undone else [(f"{world.folder}/before-1",)])
    assert not (world.folder / "restoring-1").exists()


def test_a_restore_that_was_killed_when_its_copy_was_in_place_is_only_finished(tmp_path, monkeypatch, capsys):
    world = World(tmp_path, monkeypatch)
    os.mkdir(world.folder / "before-1")
    (world.folder / "before-1" / "unfinished").write_text(RESTORE.known_as(world.copy))
    found = RESTORE.left_by_a_kill(str(world.folder), world.db, world.copy)
    assert found == f"{world.folder}/before-1" and "This run only finishes it" in capsys.readouterr().out
    assert (world.folder / "before-1" / "unfinished").exists()


@pytest.mark.parametrize("is_new, said", [(True, "enabled: a.timer b.timer\n"), (False, "These units are not enabled")])
def test_units_that_are_off_are_enabled_on_a_new_machine_or_named(tmp_path, monkeypatch, capsys, is_new, said):
    world = World(tmp_path, monkeypatch, new=is_new, complete=True)
    monkeypatch.setattr(RESTORE, "not_enabled", lambda _: ["a.timer", "b.timer"])
    RESTORE.finish(world.words, world.db, world.units, str(world.folder))
    assert said in capsys.readouterr().out
    assert ("systemctl enable --now a.timer b.timer" in world.order) == is_new
