"""index-backup: copies under uploads, copies for which there is no room, and copies that are not well."""
import os
import re
import shutil
import signal
import sqlite3
import time
from contextlib import closing

import pytest
from support.places import BIN, SERVER, TOP
from support.planted import catches
from support.running import run_command
from support.server.expected import assert_ends
from support.server.front import replaced
from support.server.kept import Uploader
from support.server.stand_ins import called, stand_ins
from support.server.waits import wait_for
from support.server.watched import unit
from support.serving import Index, accepted, make_index

BACKUPS = 3


@pytest.fixture
def backups(folder):
    os.mkdir(f"{folder}/backups")
    return f"{folder}/backups"


@pytest.fixture
def backup(program, backups):
    """Runs index-backup of a database into the folder `backups`, behind a line of a shell if one is given."""
    def run(db, *words, shell=":"):
        command = ["sh", "-c", f'{shell}; exec "$@"', "sh", f"{BIN}/index-backup", db, backups, *words]
        return run_command(command, INDEX=program)
    return run


def files_of(path):
    """The bytes of each file that the database has by itself, without its log."""
    with closing(sqlite3.connect(f"file:{path}?immutable=1", uri=True)) as database:
        return dict(database.execute("SELECT file, body FROM files JOIN blobs USING (file) WHERE live = 1"))


def missing_in(path, files):
    """Those files that the database has not, or has with other bytes."""
    found = files_of(path)
    return [it for it, body in files.items() if found.get(it) != body]


@catches("server/bin/index-verify", "if ended.returncode:", "if not ended.returncode:")
@catches("server/bin/index-backup", "for old in there[:-keep]:", "for old in there[:-keep - 1]:")
@pytest.mark.slow
def test_a_copy_under_uploads_has_what_was_acknowledged_before_and_serves_it(
        program, index, backup, backups, chance, looked):
    # some 30 uploads a second: with many more, a copy on a slow disk may never be of one moment
    uploader = Uploader(index, "busy", time.monotonic() + 90, chance, pause=0.03)
    uploader.start()
    assert wait_for(lambda: uploader.files)
    for at in range(BACKUPS):
        time.sleep(1 + chance.random())
        before = dict(uploader.files)
        ended = backup(index.path, "2")
        looked((ended.returncode, "tested in" in ended.stdout) == (0, True), ended.stdout)
        copies = sorted(os.listdir(backups))
        missing = missing_in(f"{backups}/{copies[-1]}", before)
        looked(not missing, f"{len(before)} uploads before backup {at + 1}", missing)
    uploader.stop()
    looked(len(copies) == 2 and all(it.endswith(".db") for it in copies), "the last two are kept", copies)
    with Index(program, path=f"{backups}/{copies[-1]}", patience=60) as copy:
        missing = uploader.missing(copy, before)
        looked(not missing, "the copy serves", missing)


@catches("server/lib/package_index/copied.py", "if isinstance(between, bytes):", 'if between == before == b"none":')
def test_a_copy_has_what_the_log_alone_has(index, backup, backups):
    accepted(index.claim("quiet"))
    accepted(index.upload("quiet", "quiet-1.0.tar.gz", b"new"))
    assert files_of(index.path) == {}
    assert_ends(backup(index.path), 0)
    copy, = os.listdir(backups)
    assert files_of(f"{backups}/{copy}") == {"quiet-1.0.tar.gz": b"new"}


@pytest.fixture
def filled(index):
    """An index that serves, with ten files."""
    accepted(index.claim("frob"))
    for number in range(10):
        accepted(index.upload("frob", f"frob-1.{number}.tar.gz", os.urandom(9_000)))
    return index


@catches("server/bin/index-backup", "if there[-1] > made:", "if not there:",
         also=["server/test_unit_backup.py::test_no_copy_is_removed_while_one_of_a_later_time_is_there"])
def test_copies_of_a_clock_that_was_ahead_take_none_away(filled, backup, backups):
    """As after hourly backups in one night with a wrong clock: they are more than are kept."""
    assert_ends(backup(filled.path), 0)
    good, = os.listdir(backups)
    ahead = [f"index-20360101T{hour:02}1500Z.db" for hour in range(3)]
    for name in ahead:
        shutil.copy(f"{backups}/{good}", f"{backups}/{name}")
    # a name has seconds
    os.rename(f"{backups}/{good}", f"{backups}/index-20260101T000000Z.db")
    ended = backup(filled.path, "2")
    assert_ends(ended, 1, "index-backup: ", f"{ahead[-1]} is of a later time", "the clock (timedatectl)")
    left = set(os.listdir(backups))
    assert left >= {*ahead, "index-20260101T000000Z.db"} and len(left) == 5, left
    new, = left - {*ahead, "index-20260101T000000Z.db"}
    assert len(files_of(f"{backups}/{new}")) == 10


class TestNothingIsLeft:
    """Of a backup that failed."""

    @catches("server/bin/index-backup",
             'want_room(folder, size_of(db, ("", "-wal", "-wal")), "make room, or keep fewer copies")', "pass")
    def test_without_room_it_is_not_begun(self, filled, backup, backups, folder):
        large = shutil.copy(filled.path, f"{folder}/hole.db")
        # a file with a hole, longer than any disk here has room
        os.truncate(large, 1 << 42)
        # a copy that was begun would stop there
        assert_ends(backup(large, shell="ulimit -f 100000"), 1, "make room, or keep fewer")
        assert os.listdir(backups) == []

    @catches("server/lib/package_index/copied.py", "copy(db, target)", '''os.system(f"cp '{db}' '{target}'")''',
             ("server/lib/package_index/copied.py", 'copy(f"{db}-wal", f"{target}-wal")',
              '''os.system(f"cp '{db}-wal' '{target}-wal'")'''))
    @catches("server/bin/index-backup", "removed(part)", "pass")
    @pytest.mark.told("`index-backup` failed")
    def test_a_disk_that_is_full_meanwhile_ends_it(self, filled, backup, backups):
        # files of at most 40 blocks
        assert_ends(backup(filled.path, shell="ulimit -f 40"), 1, "index-backup: cp --reflink=auto")
        assert os.listdir(backups) == []

    @catches("server/bin/index-verify", "if ended.returncode:", "if ended.returncode < 0:")
    def test_a_page_that_was_overwritten(self, filled, backup, backups, folder):
        assert_ends(backup(filled.path), 0)
        copy, = os.listdir(backups)
        damaged = shutil.move(f"{backups}/{copy}", f"{folder}/damaged.db")
        with open(damaged, "r+b") as page:
            page.seek(5 * 4096)
            page.write(b"damaged")
        assert_ends(backup(damaged), 1, "index check ended with status 1")
        assert [it for it in os.listdir(backups) if it.endswith(".db")] == []

    @catches("server/bin/index-verify", " OR sha256(body) <> digest", "")
    def test_a_file_with_other_bytes_of_the_same_length(self, filled, backup, backups, folder):
        assert_ends(backup(filled.path), 0)
        copy, = os.listdir(backups)
        other = shutil.move(f"{backups}/{copy}", f"{folder}/other.db")
        with closing(sqlite3.connect(other)) as database, database:
            database.execute("UPDATE blobs SET body = zeroblob(length(body))"
                             " WHERE file = (SELECT max(file) FROM blobs)")
        assert_ends(backup(other), 1, "bytes that don't have their digest")
        assert [it for it in os.listdir(backups) if it.endswith(".db")] == []


# A database changes at each copy until its unit is stopped. At one moment all of the group get a signal, as by Ctrl-C.
# (a shell forgets which signals are blocked once it runs another command)
SYSTEMCTL = """[ "$1" = "$MOMENT" ] && kill -s "$SIGNAL" 0
: > "$STOPPED"
echo "ended $*" >> "${0%/*}/called"
"""
COPY = """/bin/cp "$@" || exit
[ -e "$STOPPED" ] || exec touch "$2"
if [ "$MOMENT" = cp ]; then kill -s "$SIGNAL" 0; fi
"""


class TestAnIndexThatNeverPauses:
    """It is stopped for a copy if a unit is named, and only then."""

    @pytest.fixture
    def hurried(self, folder):
        """An index-backup with fewer trials."""
        shutil.copytree(SERVER, f"{folder}/server")
        lines = "server/lib/package_index/copied.py"
        with open(f"{TOP}/{lines}") as text, open(f"{folder}/{lines}", "w") as made:
            made.write(replaced(text.read(), **{"TRIALS = 20\n": "TRIALS = 2\n"}))
        return f"{folder}/server/bin/index-backup"

    @pytest.fixture
    def changing(self, program, folder):
        """A database without a log."""
        db = make_index(program, f"{folder}/changing.db")
        os.remove(f"{db}-wal")
        return db

    @pytest.fixture
    def run(self, program, changing, hurried, backups, folder):
        """Runs index-backup of a database that changes at each copy until its unit is stopped."""
        setting = {"PATH": stand_ins(f"{folder}/bin", systemctl=': > "$STOPPED"', cp=COPY), "MOMENT": "",
                   "STOPPED": f"{folder}/stopped", "INDEX": program}
        return lambda *words: run_command([hurried, changing, backups, *words], **setting)

    @pytest.fixture
    def asked(self, folder):
        """What systemctl was asked."""
        return lambda: [line for line in called(f"{folder}/bin").splitlines() if line.startswith("systemctl ")]

    @catches("server/lib/package_index/copied.py", "if before == between == state(db):", "if before:",
             also=["TestAnIndexThatNeverPauses::test_with_a_unit_it_is_stopped_and_started"])
    def test_without_a_unit_there_is_no_copy(self, run, asked):
        assert_ends(run(), 1, "2 trials", "--unit")
        assert asked() == []

    @catches("server/bin/index-backup", "if not trials and unit:", "if not trials and not unit:")
    def test_with_a_unit_it_is_stopped_and_started(self, run, asked):
        assert_ends(run("--unit", "one.service"), 0, "at trial 1")
        assert asked() == ["systemctl stop one.service", "systemctl start one.service"]

    @catches("server/bin/index-backup", "with held(), noted(unit):", "with noted(unit):")
    @pytest.mark.parametrize("number", ["HUP", "INT", "TERM"])
    @pytest.mark.parametrize("moment", ["stop", "cp", "start"])
    def test_interrupted_at_any_moment_it_starts_the_unit_again(
            self, program, changing, hurried, backups, folder, moment, number):
        setting = {"PATH": stand_ins(f"{folder}/bin", systemctl=SYSTEMCTL, cp=COPY), "STOPPED": f"{folder}/stopped",
                   "MOMENT": moment, "SIGNAL": number, "INDEX": program}
        ended = run_command(["setsid", hurried, changing, backups, "--unit", "one.service"], **setting)
        assert (ended.returncode, ended.stdout) == (-signal.Signals[f"SIG{number}"], "index-backup: stopped\n")
        assert called(f"{folder}/bin").splitlines()[-1] == "ended start one.service", called(f"{folder}/bin")
        assert os.listdir(backups) == []

    @catches("server/bin/index-backup", '        os.remove(f"{folder}/stopped")', "        pass", case="")
    @pytest.mark.parametrize("moment", ["stop", "cp", "start", ""])
    def test_killed_at_any_moment_its_own_unit_starts_the_other(self, program, changing, hurried, backups, folder,
                                                                moment):
        path, own = stand_ins(f"{folder}/bin", systemctl=SYSTEMCTL, cp=COPY), f"{folder}/own"
        os.mkdir(own)
        setting = {"PATH": path, "STOPPED": f"{folder}/stopped", "SIGNAL": "KILL", "INDEX": program,
                   "RUNTIME_DIRECTORY": own}
        words = ["setsid", hurried, changing, backups, "--unit", "one.service"]
        assert run_command(words, **setting, MOMENT=moment).returncode == (-signal.SIGKILL if moment else 0)
        before = called(f"{folder}/bin")
        after = re.search(r"^ExecStopPost=/bin/sh -c '(.*)'$", unit("index-backup.service"), re.M)[1]
        assert_ends(run_command(["sh", "-c", after.replace("$$", "$")], **setting, MOMENT=""), 0)
        started = called(f"{folder}/bin")[len(before):]
        assert started == ("systemctl start one.service\nended start one.service\n" if moment else ""), started
