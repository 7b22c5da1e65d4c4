"""What index-punch says and notes, and when it runs again, over pairs that SQLite makes."""
import glob
import json
import os
import shutil
import sys

import pytest
from support.library import exchange, holes, notes
from support.places import SERVER
from support.planted import catches
from support.running import run_command
from support.server.pairs import files_of, make_database
from support.server.punching import BLOCK, FILES, FIRST, LAST, PUNCH, World, run
from support.unit import ends, with_time


@pytest.fixture
def world(tmp_path, monkeypatch):
    return World(tmp_path, monkeypatch)


class TestProgram:
    def test_it_says_and_notes_what_it_did(self, world, monkeypatch, capsys):
        world.keep(1)
        world.delete(FIRST, LAST)
        with_time(monkeypatch, PUNCH, time=lambda: 1000.0)
        status, out, _ = run(monkeypatch, capsys, world)
        above = len(FILES[LAST])
        assert (status, out) == (0, f"{2 * BLOCK} bytes given back; {above} bytes lie above the last file and stay "
                                    "until the next upload\n")
        assert notes.last_of(world.notes) == (1000.0, above, 0)

    @catches("server/bin/index-punch", "    if done.kept:", "    if done.kept < 0:",
             also=["TestProgram::test_room_that_stays_is_noted_of_the_volume_and_of_its_copies"])
    def test_a_file_system_without_holes_is_told(self, world, monkeypatch, capsys):
        monkeypatch.setattr(holes, "give_back", lambda *_: False)
        world.delete(FIRST)
        assert run(monkeypatch, capsys, world)[:2] == (
            0, f"0 bytes given back; {2 * BLOCK} bytes are zeros and stay, since the file system has no holes\n")

    @catches("server/bin/index-punch", "            keep_last(words.notes, Last(began, above, done.kept))\n    return",
             "            pass\n    return")
    def test_room_that_stays_is_noted_of_the_volume_and_of_its_copies(self, world, monkeypatch, capsys):
        world.keep(1)
        world.delete(FIRST)
        world.keep(2)
        os.remove(f"{world.folder}/index-20260101T000000Z.db-volume")
        os.remove(f"{world.folder}/index-20260101T000000Z.db")
        monkeypatch.setattr(holes, "give_back", lambda *_: False)
        assert "16384 bytes are zeros" in run(monkeypatch, capsys, world)[1]
        assert notes.last_of(world.notes).kept == 4 * BLOCK

    @catches("server/bin/index-punch", "        keep_last(words.notes, Last(began, above, done.kept))\n    else:",
             "        pass\n    else:")
    def test_the_volume_is_noted_also_if_a_copy_is_refused(self, world, monkeypatch, capsys):
        one = world.keep(1)
        world.delete(FIRST)
        os.remove(f"{one}-volume")
        status, out, err = run(monkeypatch, capsys, world)
        assert status == 1 and "no link says" in err and FILES[FIRST] not in world.bytes()
        assert notes.last_of(world.notes) is not None

    @catches("server/bin/index-punch", "        forget_last(words.notes)", "        pass")
    def test_without_a_volume_there_is_nothing_to_do_and_nothing_is_noted(self, world, monkeypatch, capsys):
        run(monkeypatch, capsys, world)
        for it in (world.db, world.volume):
            os.remove(it)
        make_database(world.db, FILES)
        assert run(monkeypatch, capsys, world) == (0, "0 bytes given back\n", "")
        assert notes.last_of(world.notes) is None and files_of(world.db) == FILES

    def test_before_the_first_backup_the_volume_is_punched(self, world, monkeypatch, capsys):
        os.rmdir(world.folder)
        world.delete(FIRST)
        assert run(monkeypatch, capsys, world) == (
            0, f"{2 * BLOCK} bytes given back\n",
            f"index-punch: {world.folder}: no such folder, so no copies are punched\n")
        assert FILES[FIRST] not in world.bytes() and notes.last_of(world.notes) is not None

    @catches("server/bin/index-punch", "        elif not is_there(db):", "        elif not db:")
    def test_a_wrong_path_is_told(self, world, monkeypatch, capsys):
        status, _, err = ends(PUNCH, monkeypatch, capsys, f"{world.folder}/index.db", world.folder, "--notes",
                              world.notes)
        assert status == 1 and "copies/index.db: no such file" in err

    @catches("server/bin/index-punch",
             "        stack.enter_context(alone(os.path.dirname(db), AT_WORK, PATIENCE))\n", "")
    def test_it_waits_for_a_backup_a_restore_and_a_migration(self, world, monkeypatch, capsys):
        monkeypatch.setattr(PUNCH, "PATIENCE", 0)
        world.delete(FIRST)
        with exchange.alone(os.path.dirname(world.db), "x"):
            status, _, err = run(monkeypatch, capsys, world)
        assert status == 1 and f"var: another {exchange.AT_WORK} is at work there" in err
        assert FILES[FIRST] in world.bytes()

    @pytest.mark.parametrize("text", ["", "{}", "[]", '{"began": 1}', '{"began": "x", "above": 1, "kept": 2}', "{"])
    def test_a_note_that_nobody_can_read_is_none(self, tmp_path, text):
        (tmp_path / "last").write_text(text)
        assert notes.last_of(str(tmp_path)) is None and notes.last_of(str(tmp_path / "none")) is None

    def test_a_note_is_of_names(self, tmp_path):
        notes.keep_last(str(tmp_path), notes.Last(5.5, 7, 9))
        assert json.loads((tmp_path / "last").read_text()) == {"began": 5.5, "above": 7, "kept": 9}


@catches("server/debian/templates.py", '    ("/var/lib/index-punch", "/var/lib/index-punch/%i"),\n', "")
@catches("server/debian/templates.py", '    ("index-backup.timer", "index-backup@%i.timer"),\n', "")
@catches("server/debian/templates.py",
         '    ("index-punch.timer index-punch.path", "index-punch@%i.timer index-punch@%i.path"),\n', "")
@catches("server/debian/templates.py", r'    ("StateDirectory=index-punch\n", "StateDirectory=index-punch/%i\n"),', "")
def test_of_several_indexes_each_is_punched_with_its_backups(tmp_path):
    """By one mark: nobody knows of which index a ban is."""
    for kind in ("service", "timer", "path"):
        for path in glob.glob(f"{SERVER}/systemd/*.{kind}"):
            shutil.copy(path, tmp_path)
    assert run_command([sys.executable, f"{SERVER}/debian/templates.py", str(tmp_path)]).returncode == 0

    def lines(name):
        return [it for it in (tmp_path / name).read_text().splitlines() if not it.startswith("#")]

    own = lines("index-punch@.service")
    assert [it for it in own if it.startswith(("ExecStart", "State", "Part", "After"))] == [
        "PartOf=index-backup@%i.timer", "After=index-backup@%i.timer",
        "ExecStart=/usr/local/bin/index-punch /var/lib/index/%i/index.db /var/backups/index/%i --notes "
        "/var/lib/index-punch/%i \\", "StateDirectory=index-punch/%i", "StateDirectoryMode=0700"]
    assert "    --mark /var/lib/index-uncache/banned --mark /var/lib/index-fronts/banned" in own
    assert "Wants=index-punch@%i.timer index-punch@%i.path" in lines("index-backup@.timer")
    assert all("PartOf=index-backup@%i.timer" in lines(f"index-punch@.{it}") for it in ("timer", "path"))
    assert any(it.endswith("--punched /var/lib/index-punch/%i") for it in lines("index-metrics@.service"))


class TestMarks:
    """Of bans, by which index-uncache-follow has it run."""

    @catches("server/bin/index-punch", "if marks_in(words.mark) == seen:", "if seen:")
    @catches("server/bin/index-punch",
             "        marks = marks_in(words.mark)\n        tell(f\"{punch_all(db, words)}\\n\")",
             "        tell(f\"{punch_all(db, words)}\\n\")\n        marks = marks_in(words.mark)")
    def test_a_ban_while_it_runs_has_it_run_again(self, world, monkeypatch, capsys, tmp_path):
        mark, real, runs = tmp_path / "banned", PUNCH.punch_volume, []
        mark.touch()
        pauses = []
        with_time(monkeypatch, PUNCH, sleep=pauses.append)

        def punch_volume(*words):
            done = real(*words)
            runs.append(done)
            if len(runs) == 1:
                # a ban that the copy of the database has not
                world.delete(FIRST)
                mark.write_text("x")
                os.utime(mark, ns=(5, 5))
            return done

        monkeypatch.setattr(PUNCH, "punch_volume", punch_volume)
        assert run(monkeypatch, capsys, world, "--mark", mark, "--mark", tmp_path / "none")[0] == 0
        assert len(runs) == 2 and FILES[FIRST] not in world.bytes()
        assert pauses[0] == 0 and 58 < pauses[1] <= 60

    @catches("server/bin/index-punch",
             "    return left if 0 < left <= SHARED else 0", "    return left if 0 < left else 0")
    @catches("server/bin/index-punch", "last.began + SHARED - now", "0")
    @pytest.mark.parametrize("began, pause", [(100, 60), (99.5, 59.5), (41, 1), (40, 0), (0, 0), (100.5, 0), (9e9, 0)])
    def test_bans_within_a_minute_share_one_copy(self, began, pause):
        assert PUNCH.pause_after(notes.Last(began, 0, 0), 100) == pause

    def test_the_first_run_waits_for_nothing_and_one_without_marks_neither(self, world, monkeypatch, capsys):
        assert PUNCH.pause_after(None, 100) == 0
        pauses = []
        with_time(monkeypatch, PUNCH, sleep=pauses.append)
        for _ in range(2):
            assert run(monkeypatch, capsys, world)[0] == 0
        assert pauses == [0, 0]
