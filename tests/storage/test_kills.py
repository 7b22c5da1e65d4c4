"""The program is killed at random moments: what it acknowledged is there, and nothing that was not asked.

`--rounds N` kills each subcommand so often."""
import shutil
import sqlite3
import threading
import time
from contextlib import closing

import pytest
from support.judge import Judge, copy_index, seen_by_sqlite
from support.old_version import make_old_version
from support.planted import catches
from support.running import kill_after, run, run_command
from support.server.waits import wait_for
from support.serving import OFFICE, Index
from support.acknowledged import Acknowledged, report_rows
from support.kills import Job, Killing
from support.workload import REQUESTS, lines_of

ROUNDS, LONGEST, HISTORIES = 20, 0.15, 4
LINES = lines_of(REQUESTS)


@pytest.fixture(scope="module")
def killing(program, shared_folder):
    return Killing(program, Judge(program, shared_folder))


@pytest.fixture(scope="module")
def old_index(shared_folder):
    """An index of version 1."""
    return make_old_version(f"{shared_folder}/old.db")


@pytest.fixture(scope="module")
def migrated_rows(program, old_index, shared_folder):
    path = copy_index(old_index, f"{shared_folder}/migrated.db")
    run(program, "check", "--db", path)
    return seen_by_sqlite(path)[1]


@pytest.fixture(scope="module")
def logged_index(program, killing, shared_folder):
    """An index with all its changes in its log."""
    return kill_after(program, copy_index(killing.judge.new, f"{shared_folder}/logged.db"), LINES)


@pytest.fixture
def path(folder):
    return f"{folder}/killed.db"


def is_sound(program, path, allowed):
    """The database is opened, its charges are right, and its rows are among these."""
    checked = run(program, "check", "--db", path)
    assert (checked.returncode, checked.stdout, checked.stderr) == (0, b"0\n", b"")
    assert seen_by_sqlite(path) in [(True, rows) for rows in allowed]
    return True


@pytest.mark.usefixtures("round_number")
class TestKilled:
    """Each of these once a round."""

    def test_init_leaves_nothing_or_an_index(self, killing, path, chance, looked):
        for output in killing.outputs(Job(("init", *OFFICE)), path, chance):
            again = run(killing.program, "init", "--db", path, *OFFICE)
            is_made = again.stderr.startswith(b"index: NotEmpty\n")
            looked(output in (b"", b"created\n") and (is_made or not output and again.stdout == b"created\n"), again)
            looked(is_sound(killing.program, path, [killing.judge.rows(())]))

    def test_migration_has_every_row(self, killing, old_index, migrated_rows, path, chance, looked):
        for output in killing.outputs(Job(("check",), old_index), path, chance):
            looked(output in (b"", b"0\n"), output)
            looked(is_sound(killing.program, path, [migrated_rows]))

    def test_apply_keeps_what_it_answered(self, killing, path, chance, looked):
        job = Job(("apply",), killing.judge.new, b"".join(LINES))
        for output in killing.outputs(job, path, chance):
            answers = tuple(output.splitlines())
            looked(b"\n".join(killing.judge.answers(LINES)[:len(answers)]).startswith(b"\n".join(answers)), output)
            allowed = [killing.judge.rows(LINES[:count]) for count in (len(answers), len(answers) + 1)]
            looked(is_sound(killing.program, path, allowed))

    @pytest.mark.parametrize("command", ["check", "report"])
    def test_reading_loses_nothing(self, killing, logged_index, command, path, chance, looked):
        for _ in killing.outputs(Job((command,), logged_index), path, chance):
            looked(is_sound(killing.program, path, [killing.judge.rows(LINES)]))


@catches("tests/support/acknowledged.py", "self.take(index.claim(name))", "raise OSError", case="0")
@pytest.mark.parametrize("history", [0, *(pytest.param(it, marks=pytest.mark.slow) for it in range(1, HISTORIES))])
def test_serve_keeps_what_it_acknowledged(program, folder, chance, looked, history, pytestconfig):
    """One index is served and killed again and again; each round serves the files of the round before."""
    path, asked, before = f"{folder}/index.db", Acknowledged(chance), []
    for _ in range(-(-(pytestconfig.option.rounds or ROUNDS) // HISTORIES)):
        known = {*asked.files}
        with Index(program, path=path) as index:
            looked(not asked.lost(index, before), "the files of the round before")
            asking = threading.Thread(target=asked.go_on, args=(index,))
            asking.start()
            # (the first is killed behind an upload)
            wait_for(lambda: known or asked.files or not asking.is_alive())
            time.sleep(chance.uniform(0, LONGEST))
            index.process.kill()
            asking.join()
        assert not asked.refused
        checked = run(program, "check", "--db", path)
        looked((checked.returncode, checked.stdout) == (0, b"0\n"), checked)
        looked(not asked.difference(report_rows(run(program, "report", "--db", path).stdout)))
        before = sorted({*asked.files} - known)
    looked(asked.files, "files that were acknowledged")
    looked(not faults_by_sqlite(path, folder))
    with Index(program, path=path) as index:
        looked(not asked.lost(index), f"{len(asked.files)} files at the end")


def faults_by_sqlite(path, folder):
    """What Python's SQLite and, if it is here, the shell `sqlite3` say of a copy of the database and its log."""
    copy = copy_index(path, f"{folder}/copy.db")
    with closing(sqlite3.connect(copy)) as database:
        found = [database.execute("PRAGMA integrity_check").fetchall()]
    if shutil.which("sqlite3"):
        found.append(run_command(["sqlite3", copy, "PRAGMA integrity_check"]).stdout.strip())
    return [fault for fault in found if fault not in ([("ok",)], "ok")]
