"""index-reseal: an index gets page sums, by which the program then finds damage."""
import fcntl
import os
import shutil
import signal
import sqlite3
from contextlib import closing

import pytest
from support.needed import want_command
from support.places import BIN
from support.planted import catches
from support.running import run_command
from support.server.expected import assert_ends
from support.server.logs import bytes_of, flip
from support.server.rows import made
from support.server.stand_ins import stand_ins
from support.serving import Index

FLIPS = 8
# of a database's header: its length, and the byte that tells how many bytes each page leaves free
HEAD, FREE = 100, 20


@pytest.fixture
def old(program, folder):
    """An index without sums."""
    want_command("sqlite3", "sqlite3")
    return made(program, f"{folder}/index.db")


@pytest.fixture
def reseal(program, folder):
    """Runs index-reseal from a file into a new one."""
    def run(db, new=f"{folder}/new.db"):
        return run_command([f"{BIN}/index-reseal", db, new], INDEX=program)
    return run


@pytest.fixture
def check(program):
    """Runs `index check`."""
    return lambda db: run_command([program, "check", "--db", db])


def rows_of(db):
    """All rows, by SQLite on the file alone."""
    with closing(sqlite3.connect(f"file:{db}?immutable=1", uri=True)) as database:
        return sorted(database.iterdump())


@catches("server/lib/package_index/page_sums.py", "page[-SUM:] = sum_of_page(page)", "pass")
@catches("server/lib/package_index/page_sums.py", "page[-SUM:] = sum_of_page(page)", "pass",
         ("server/bin/index-reseal", 'run(f"{HERE}/index-verify", made)', "pass"),
         also=["test_a_write_by_sqlite_spoils_the_sums_and_they_are_made_again"])
@catches("server/bin/index-reseal", "seal(made)",
         'run("sqlite3", made, "UPDATE names SET quota = quota + 1 WHERE state = 1"); seal(made)')
@catches("server/bin/index-reseal", 'f".filectrl reserve_bytes {SUM}", f"VACUUM', 'f"VACUUM',
         ("server/lib/package_index/page_sums.py", "if head[FREE] != SUM:", "if head[FREE] > SUM:"),
         ("server/lib/package_index/page_sums.py", "page[-SUM:] = sum_of_page(page)", "pass"),
         also=["test_each_flipped_bit_of_the_new_file_is_refused_as_damage",
               "test_a_write_by_sqlite_spoils_the_sums_and_they_are_made_again"])
def test_the_new_file_has_the_same_rows_and_room_for_sums_and_the_old_one_is_untouched(old, reseal, folder, check):
    before = bytes_of(old)
    assert_ends(reseal(old), 0, "with page sums")
    assert rows_of(f"{folder}/new.db") == rows_of(old)
    assert bytes_of(old) == before
    assert bytes_of(f"{folder}/new.db")[0][FREE] == 8
    ended = check(f"{folder}/new.db")
    assert (ended.returncode, ended.stdout) == (0, "0\n")


@pytest.mark.slow
def test_each_flipped_bit_of_the_new_file_is_refused_as_damage(
        old, reseal, folder, check, chance, looked, pytestconfig):
    reseal(old)
    new = f"{folder}/new.db"
    for _ in range(pytestconfig.option.rounds or FLIPS):
        copy, bit = shutil.copy(new, f"{folder}/flipped.db"), chance.randrange(8 * HEAD, 8 * os.path.getsize(new))
        flip(copy, bit)
        ended = check(copy)
        looked(ended.returncode == 1 and "damaged" in ended.stdout, bit, ended.returncode, ended.stdout)


@catches("server/bin/index-reseal", 'run(f"{HERE}/index-log", db)', 'run(os.environ["INDEX"], "check", "--db", db)')
def test_a_write_by_sqlite_spoils_the_sums_and_they_are_made_again(old, reseal, folder, check):
    assert_ends(reseal(old), 0)
    new, again = f"{folder}/new.db", f"{folder}/again.db"
    with closing(sqlite3.connect(new)) as database, database:
        database.execute("UPDATE names SET shown = 'FROB-NEST' WHERE name = 'frob-nest'")
    assert_ends(check(new), 1, "damaged")
    assert_ends(reseal(new, again), 0)
    ended = check(again)
    assert (ended.returncode, ended.stdout) == (0, "0\n")


class TestRefused:
    """Nothing is left of a new file that is refused."""

    @catches("server/bin/index-reseal", "if os.path.lexists(new):", "if not new:")
    def test_a_file_that_is_there_already_stays_as_it_is(self, old, reseal, folder):
        with open(f"{folder}/new.db", "wb") as there:
            there.write(b"mine")
        assert_ends(reseal(old), 1, "there already")
        assert bytes_of(there.name) == [b"mine"]

    @catches("server/bin/index-reseal", 'run(f"{HERE}/index-verify", made)', "pass")
    @pytest.mark.told("`index-restore`")
    def test_a_wrong_row(self, old, reseal, folder):
        with closing(sqlite3.connect(old)) as database, database:
            database.execute("UPDATE files SET rel = '2' WHERE rel = '1.0rc1'")
        assert_ends(reseal(old), 1, "doesn't spell")
        assert [it for it in os.listdir(folder) if it.startswith("new")] == []

    @catches("server/bin/index-reseal", "lock(database)", "pass")
    def test_an_index_that_serves(self, old, reseal, program, folder):
        with Index(program, path=old):
            assert_ends(reseal(old), 1, "has it open")
        assert [it for it in os.listdir(folder) if it.startswith("new")] == []


# It writes a part of the new file, and all of the group get a signal, as by Ctrl-C or as the terminal closes.
SQLITE3 = """target=${3#VACUUM INTO }
echo part > "$(echo "$target" | tr -d \\')"
kill -s "$SIGNAL" 0
"""


class TestInterrupted:
    """A run that ends in its middle."""

    @pytest.fixture
    def interrupted(self, old, program, folder):
        """Runs index-reseal, which gets this signal while `sqlite3` writes."""
        def run(number):
            path = stand_ins(f"{folder}/bin", sqlite3=SQLITE3)
            words = ["setsid", f"{BIN}/index-reseal", old, f"{folder}/new.db"]
            return run_command(words, INDEX=program, PATH=path, SIGNAL=number)
        return run

    @catches("server/bin/index-reseal", "shutil.rmtree(path)", "pass")
    @pytest.mark.parametrize("number", ["HUP", "INT", "TERM"])
    def test_a_signal_leaves_nothing(self, interrupted, folder, number):
        ended = interrupted(number)
        assert (ended.returncode, ended.stdout) == (-signal.Signals[f"SIG{number}"], "index-reseal: stopped\n")
        assert [it for it in os.listdir(folder) if it.startswith("new")] == []

    @catches("server/bin/index-reseal", "with suppress(FileExistsError):", "if path:")
    def test_after_a_kill_the_next_run_removes_what_was_left_and_makes_the_file(
            self, interrupted, old, reseal, folder, check):
        assert interrupted("KILL").returncode == -signal.SIGKILL
        assert set(os.listdir(f"{folder}/new.db.part")) == {"copy.db", "new.db"}
        assert_ends(reseal(old), 0, "with page sums")
        assert [it for it in os.listdir(folder) if it.startswith("new")] == ["new.db"]
        assert_ends(check(f"{folder}/new.db"), 0)

    @catches("server/bin/index-reseal", 'with alone(path, "index-reseal"):', "if path:")
    def test_a_run_beside_another_leaves_its_folder_alone(self, old, reseal, folder):
        os.mkdir(f"{folder}/new.db.part")
        opened = os.open(f"{folder}/new.db.part", os.O_RDONLY)
        fcntl.flock(opened, fcntl.LOCK_EX)
        with open(f"{folder}/new.db.part/copy.db", "wb") as theirs:
            theirs.write(b"theirs")
        assert_ends(reseal(old), 1, "another index-reseal is at work there")
        assert bytes_of(theirs.name) == [b"theirs"]
        os.close(opened)
