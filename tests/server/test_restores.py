"""index-restore: restores that are refused, killed and done, and that nothing is lost by any."""
import datetime
import glob
import gzip
import json
import os
import re
import shutil
import signal
import sys

import pytest
from support.places import BIN, TOP
from support.planted import catches
from support.running import kill_after, run_command
from support.server.expected import assert_ends, assert_reply
from support.server.restores import KILLED, KILLS, names_of, restores
from support.serving import make_index

# more than any copy here is; without a look at the room a disk would be filled with a long one
LIMIT = "ulimit -f 100000"


@pytest.fixture
def empty(program, folder, certificate):
    with restores(program, folder, certificate) as by:
        yield by


@pytest.fixture
def by(empty, chance):
    empty.fill(chance)
    return empty


def cut(by):
    copy = shutil.copy(by.copy, f"{by.work}/cut.db")
    os.truncate(copy, os.path.getsize(copy) // 2)
    return copy


def text(by):
    with open(f"{by.work}/text.db", "w") as made:
        made.write("this is not a database\n" * 1000)
    return made.name


def large(by):
    """A file with a hole, longer than any disk here has room."""
    copy = shutil.copy(by.copy, f"{by.work}/large.db")
    os.truncate(copy, 1 << 42)
    return copy


WRONG_COPIES = {
    "a_path_that_is_not_there": (lambda by: f"{by.work}/nowhere.db", "No such file"),
    "a_copy_that_was_cut": (cut, "damaged"),
    "a_text": (text, "not a database"),
    "a_copy_for_which_there_is_no_room": (large, "has room for"),
    "an_older_copy": (lambda by: shutil.copy(by.copy, f"{by.backups}/index-20200101T000000Z.db"), "is newer"),
    "a_copy_of_a_later_time_than_now": (lambda by: shutil.copy(by.copy, f"{by.backups}/index-21000101T000000Z.db"),
                                        "look at the clock"),
    "the_database_itself": (lambda by: by.index.path, "the database itself"),
    "no_path": (lambda by: "", "give the path"),
}
QUICK_COPIES = "a_copy_that_was_cut", "an_older_copy"


def assert_as_before(by, asked=()):
    """The units were asked so, nothing stands beside the database, and no file is lost once the index started again."""
    assert by.manager.asked == list(asked)
    assert by.left() == []
    by.index.starts_again()
    assert by.missing() == []


class TestRefused:
    """What can't be restored is refused before the index is stopped, and nothing is lost."""

    @catches("server/bin/index-restore", "look_at_copy(words.copy, db, words.older)",
             'os.path.exists(f"{db}-wal") and os.remove(f"{db}-wal"); look_at_copy(words.copy, db, words.older)',
             case="a_path_that_is_not_there")
    @catches("server/bin/index-restore", 'raise Refused(f"{copy}: {end.strerror}") from None',
             "raise Refused(copy) from None", case="a_path_that_is_not_there")
    @catches("server/bin/index-restore", "if not copy:", "if copy is None:", case="no_path")
    @catches("server/bin/index-restore", 'run(f"{HERE}/index-verify", *read, made)', "pass",
             case="a_copy_that_was_cut")
    @catches("server/bin/index-restore", "if not is_database:", "if not copy:", case="a_text")
    @catches("server/bin/index-restore",
             'want_room(folder, size_of(words.copy, ("", "-wal", "-wal")) + volume_bytes(words.copy))', "pass",
             case="a_copy_for_which_there_is_no_room")
    @catches("server/bin/index-restore", "and newer > name:", "and newer < name:", case="an_older_copy")
    @catches("server/bin/index-restore", "if begun_at(copy) > now:", "if not copy:",
             case="a_copy_of_a_later_time_than_now")
    @catches("server/bin/index-restore", "if is_there(db) and os.path.samefile(copy, db):", "if not copy:",
             case="the_database_itself")
    @catches("server/bin/index-restore", "put_beside(words.copy, beside, os.stat(os.path.dirname(db)))",
             "units.stop(); put_beside(words.copy, beside, os.stat(os.path.dirname(db)))", case="a_copy_that_was_cut",
             also=["TestRefused::test_a_disk_that_is_full_meanwhile"])
    @pytest.mark.parametrize("what", [it if it in QUICK_COPIES else pytest.param(it, marks=pytest.mark.slow)
                                      for it in WRONG_COPIES])
    @pytest.mark.told("`index-restore`")
    def test_a_wrong_copy(self, by, what):
        copy, said = WRONG_COPIES[what]
        assert_ends(by.run(copy(by), shell=LIMIT), 1, said)
        assert_as_before(by)

    @catches("server/bin/index-restore", 'copy_file(copy + end, f"{made}{end}")',
             '''os.system(f"cp '{copy + end}' '{made}{end}'")''')
    def test_a_disk_that_is_full_meanwhile(self, by):
        # files of at most 40 blocks
        assert_ends(by.run(by.copy, shell="ulimit -f 40"), 1, "index-restore: cp --reflink=auto")
        assert_as_before(by)

    @catches("server/bin/index-restore", "    look_at_index(db, words.url)", "")
    def test_another_index_than_the_one_that_answers(self, by, program):
        os.mkdir(f"{by.work}/other")
        other = make_index(program, f"{by.work}/other/index.db")
        assert_ends(by.run(by.copy, db=other), 1, "no program has")
        assert_as_before(by)

    @catches("server/bin/index-restore", "        want_units_of(db, units.names)", "        pass")
    def test_a_unit_of_another_index(self, by):
        """It would be stopped, and started even if it was off."""
        command = "{ path=/x/index-log ; argv[]=/x/index-log /var/lib/index/8081/index.db -- /x/index serve ; }"
        by.manager.shown["index.service", "ExecStart"] = command
        assert_ends(by.run(by.copy), 1, f"index.service does not serve {by.index.path}: name its own unit by --unit")
        assert_as_before(by)

    @catches("server/bin/index-restore", 'lock(database, f"end that first (fuser {db})")', "pass")
    @catches("server/bin/index-restore", "shutil.rmtree(beside, ignore_errors=True)", "pass")
    def test_an_index_that_goes_on_after_it_was_stopped(self, by):
        assert_ends(by.run(by.copy, unit="other.service"), 1, "still has it open")
        assert_as_before(by, ["stop other.service", "start other.service"])


@catches("server/lib/package_index/exchange.py", 'os.link(db + end, f"{at}/index.db{end}")',
         'os.rename(db + end, f"{at}/index.db{end}")',
         ("server/lib/package_index/exchange.py", "os.remove(db + end)", "pass"))
@catches("server/lib/package_index/exchange.py", "os.remove(db + end)", 'os.remove(db + ("" if end else "-wal"))')
@pytest.mark.slow
def test_killed_before_each_move_the_old_database_is_whole_or_the_copy_is_in_its_place(by, program, looked):
    """Neither is lost."""
    claims = [b'{"at":1,"token":"office","do":"claim","name":"killed"}\n']
    for number in range(KILLS):
        at = f"{by.work}/killed{number}"
        os.mkdir(at)
        kill_after(program, make_index(program, f"{at}/index.db"), claims)
        killed = [sys.executable, "-c", KILLED, str(number)]
        ended = by.run(by.copy, front=killed, unit="none.service", db=f"{at}/index.db", pypi=f"{by.work}/none", port=1)
        looked(ended.returncode == -signal.SIGKILL, number, ended.stdout)
        names = {it: names_of(it, by.work) for it in (f"{at}/index.db", *glob.glob(f"{at}/*/index.db"))}
        looked(["killed"] in names.values(), number, names)
        looked(names[f"{at}/index.db"] in (None, ["killed"], ["frob"]), number, names)


@catches("server/bin/index-restore", 'UNITS = "index.service",', 'UNITS = "index-health.timer", "index.service"')
def test_of_an_index_that_a_killed_restore_left_off_the_check_of_health_tells(by):
    """It goes on, and what is stopped it leaves so."""
    ended = by.run(by.copy, front=[sys.executable, "-c", KILLED, "2"], unit=None)
    assert (ended.returncode, by.manager.asked[0]) == (-signal.SIGKILL, "stop index.service"), ended.stdout
    assert not any("index-health" in it for it in by.manager.asked)
    ended = run_command([f"{BIN}/index-health", "--patience", "0.5", f"http://127.0.0.1:{by.index.port}"])
    assert_ends(ended, 3)


@catches("server/lib/package_index/units.py", "[os.path.realpath(word) for word in command.split()",
         "[word for word in command.split()")
def test_a_unit_of_a_link_to_the_database_is_its_own(by):
    os.symlink(by.folder, f"{by.work}/link")
    by.manager.shown["index.service", "ExecStart"] = f"{{ argv[]=/x/index serve --db {by.work}/link/index.db ; }}"
    assert_ends(by.run(by.copy), 0)


class TestANewMachine:
    """What is not enabled is off when the machine starts again."""

    NAMES = ["index.service", "index-backup.timer", "index-health.timer", "index-alarms.timer",
             "index-certificate.timer"]

    @catches("server/lib/package_index/units.py", 'shown(it, "UnitFileState") == "disabled"]',
             'shown(it, "UnitFileState") == "masked"]',
             also=["TestANewMachine::test_they_are_enabled_if_the_machine_is_new"])
    def test_units_that_are_not_enabled_are_named(self, by):
        by.manager.shown["index-backup.timer", "UnitFileState"] = "disabled"
        by.manager.shown["index-health.timer", "UnitFileState"] = "enabled"
        ended = by.run(by.copy)
        assert_ends(ended, 0, "not enabled, so they stay off", "systemctl enable --now index-backup.timer\n")
        assert not any(it.startswith("enable") for it in by.manager.asked)

    @catches("server/bin/index-restore", "tell(enable(off) if words.new else", "tell(str(off) if words.new else")
    def test_they_are_enabled_if_the_machine_is_new(self, by):
        by.manager.shown = {(name, "UnitFileState"): "disabled" for name in self.NAMES}
        ended = by.run(by.copy, "--new")
        assert_ends(ended, 0, f"enabled: {' '.join(self.NAMES)}\n")
        assert by.manager.asked[-1] == f"enable --now {' '.join(self.NAMES)}"

    @catches("server/bin/index-restore", "        if off:", "        if True:")
    def test_nothing_is_said_if_all_are_enabled(self, by):
        by.manager.shown = {(name, "UnitFileState"): "enabled" for name in self.NAMES}
        ended = by.run(by.copy, "--new")
        assert ended.returncode == 0 and "enable" not in ended.stdout, ended.stdout
        assert not any(it.startswith("enable") for it in by.manager.asked)


@catches("server/bin/index-restore", "# again: it may have served until now", "pypi.take_off()")
@catches("server/bin/index-restore", "if not words.complete:", "if words.copy:")
def test_a_complete_copy_forgets_nothing_so_pypi_stays_on(by, looked):
    with by.index.away():
        for end in ("", "-wal"):
            shutil.copy(by.index.path + end, f"{by.work}/complete.db{end}")
    ended = by.run(f"{by.work}/complete.db", "--complete")
    assert_ends(ended, 0)
    looked("forgets" not in ended.stdout, ended.stdout)
    looked(by.missing() == [], by.missing())
    assert_reply(by.front.ask("GET", "/simple/other/"), 200, None, b"a stranger's")


@pytest.mark.slow
def test_page_sums_are_taken_off_as_the_page_says(by):
    """Also of an index that was ended, and left a log, which sqlite3 brings into the database."""
    with open(f"{TOP}/docs/operators/RECOVERY.md", encoding="utf-8") as page:
        command = re.search("take sums off, with the index stopped: `(.*?)`, then", page.read())[1]
    sealed, plain = f"{by.folder}/sealed.db", f"{by.folder}/plain.db"
    by.index.stop()
    assert_ends(run_command([f"{BIN}/index-reseal", by.index.path, sealed], INDEX=by.program), 0)
    assert_ends(by.run(sealed, "--complete"), 0)
    # so long that sqlite3 takes some ticks of the clock to bring it in
    by.upload("frob-3.0.tar.gz", bytes(15_000_000), by.after)
    by.index.stop()
    assert os.path.getsize(f"{by.index.path}-wal")
    assert_ends(run_command(["sh", "-c", command.replace("/var/lib/index", by.folder)]), 0)
    assert_ends(by.run(plain, "--complete"), 0)
    assert by.missing() == []
    with open(by.index.path, "rb") as database:
        assert database.read(21)[20] == 0


class TestAComplete:
    """A copy with which nothing is forgotten has to be younger than the database."""

    @pytest.fixture
    def complete(self, by):
        """A copy that has all, made while the index was away."""
        with by.index.away():
            for end in ("", "-wal"):
                shutil.copy(by.index.path + end, f"{by.work}/complete.db{end}")
        return f"{by.work}/complete.db"

    @catches("server/bin/index-restore", "st_mtime_ns > os.stat(copy).st_mtime_ns:",
             "st_mtime_ns > os.stat(copy).st_mtime_ns and not copy:",
             also=["TestAComplete::test_is_refused_if_the_index_took_an_upload_before_it_was_stopped"])
    def test_is_refused_once_the_index_took_an_upload_after_it(self, by, complete):
        by.upload("frob-3.0.tar.gz", b"later", by.after)
        assert_ends(by.run(complete, "--complete"), 1, f"{by.index.path}-wal was written after {complete}",
                    "make the copy again")
        assert_as_before(by)

    @catches("server/bin/index-restore", "# again: it may have served until now", "os.utime(words.copy)")
    def test_is_refused_if_the_index_took_an_upload_before_it_was_stopped(self, by, complete):
        stop = by.manager.do

        def uploads_first(asked):
            if asked == "stop+index.service":
                by.upload("frob-3.0.tar.gz", b"later", by.after)
            stop(asked)

        by.manager.do = uploads_first
        assert_ends(by.run(complete, "--complete"), 1, "make the copy again")
        assert_as_before(by, ["stop index.service", "start index.service"])


def logged(at, body):
    """A line of nginx's log of changes, with the moment of a datetime, or without one."""
    moment = {} if at is None else {"at": at.isoformat(timespec="seconds")}
    return json.dumps({**moment, "body": body}) + "\n"


class TestDone:
    """A restore has what the copy has."""

    @catches("server/bin/index-restore", "os.chmod(path, 0o600)",
             'run(sys.executable, "-c", "import sqlite3, sys; copy = sqlite3.connect(sys.argv[1]); '
             '''copy.execute('DELETE FROM blobs'); copy.commit()", made); os.chmod(path, 0o600)''')
    @catches("server/bin/index-restore", "os.chmod(path, 0o600)", "os.chmod(path, 0o644)")
    def test_what_the_copy_has_is_there_and_is_the_indexs_alone(self, by):
        assert_ends(by.run(by.copy), 0, "the index answers")
        assert by.before and by.missing(by.before) == []
        mode, owner = os.stat(by.index.path), os.stat(by.folder)
        assert (mode.st_mode & 0o777, mode.st_uid) == (0o600, owner.st_uid)

    @catches("server/lib/package_index/cache.py", "os.remove(path)", "pass")
    def test_nginx_keeps_nothing_of_before(self, by):
        assert_reply(by.front.ask("GET", "/files/frob/frob-2.0.tar.gz"), 200)
        assert_ends(by.run(by.copy), 0)
        assert_reply(by.front.ask("GET", "/files/frob/frob-2.0.tar.gz"), 404, None, b"NoFile")

    @catches("server/bin/index-restore", "os.rename(self.conf, self.off)", "pass")
    def test_pypi_is_off_so_a_name_that_was_claimed_since_is_not_pypis(self, by):
        assert_reply(by.front.ask("GET", "/simple/other/"), 200, None, b"a stranger's")
        assert_ends(by.run(by.copy), 0, "PyPI was taken off")
        assert_reply(by.front.ask("GET", "/simple/later/"), 404)

    @catches("server/bin/index-restore", 'if COPY.fullmatch(it) and it <= f"{copy_name(now)}.db"), default=name)',
             "if COPY.fullmatch(it)), default=name)")
    def test_a_copy_of_a_later_time_than_now_is_not_the_last(self, by):
        shutil.copy(by.copy, f"{by.backups}/index-21000101T000000Z.db")
        assert_ends(by.run(by.copy), 0, "the index answers")

    @catches("server/lib/package_index/exchange.py", "os.rename(made, db)",
             'os.rename(made, db); os.remove(f"{aside}/index.db")')
    @catches("server/bin/index-restore", "for end in ends:", "for end in ends[:1]:")
    def test_what_was_there_before_can_be_had_back(self, by):
        assert_ends(by.run(by.copy), 0)
        aside, = by.left()
        assert_ends(by.run(f"{by.folder}/{aside}/index.db"), 0, "the index answers")
        assert by.missing() == []


class TestChangesSince:
    """The changes since the second of the copy are listed, oldest first, to be repeated."""

    @pytest.fixture
    def begun(self, by):
        """The second in which the copy was begun, by its name."""
        name = os.path.basename(by.copy)
        return datetime.datetime.strptime(f"{name} +0000", "index-%Y%m%dT%H%M%SZ.db %z")

    def listed(self, by, *more):
        """What is said, and the bodies of the changes that a restore lists."""
        ended = by.run(by.copy, *more)
        aside, = by.left()
        with open(f"{by.folder}/{aside}/changes") as changes:
            return ended, [json.loads(line)["body"] for line in changes]

    @catches("server/lib/package_index/changes.py", "                if not moment or moment >= self.since:",
             "                if line:")
    @catches("server/lib/package_index/changes.py",
             'moment = datetime.datetime.fromisoformat(said.get("at") or said.get("time"))',
             'moment = datetime.datetime.fromisoformat(said.get("at") or "0001-01-01T00:00:00+00:00")')
    @catches("server/lib/package_index/changes.py", "                if not moment or moment >= self.since:",
             "                if not moment or moment > self.since:")
    def test_a_change_before_the_copy_is_left_out_and_one_of_its_second_is_not(self, by, begun):
        second, hour = datetime.timedelta(seconds=1), datetime.timezone(datetime.timedelta(hours=2))
        with open(by.log, "w") as log:
            log.write(logged(begun - second, "before"))
            log.write(logged((begun - second).astimezone(hour), "before, by another clock"))
            log.write(logged(begun, "a ban in the second of the copy"))
            log.write(logged((begun + second).astimezone(hour), "after"))
            log.write(logged(None, "without a time"))
        ended, bodies = self.listed(by)
        assert_ends(ended, 0, "nginx passed on 3 of them", "prohibit the project")
        assert bodies == ["a ban in the second of the copy", "after", "without a time"]

    def test_each_nginx_has_a_log_of_its_own(self, by, begun):
        for path, numbers in ((by.log, (1, 4)), (f"{by.work}/other.log", (2, 3, 5))):
            with open(path, "w") as log:
                log.writelines(logged(begun + datetime.timedelta(seconds=it), f"change {it}") for it in numbers)
        ended, bodies = self.listed(by, "--changes", f"{by.work}/other.log")
        assert_ends(ended, 0, "nginx passed on 5 of them", "5. nginx on other machines.")
        assert bodies == [f"change {it}" for it in range(1, 6)]

    @catches("server/lib/package_index/log_place.py", "if os.path.isfile(it)), key=lambda it: age(log, it))",
             "if os.path.isfile(it)), reverse=True)")
    def test_rotated_logs_are_read_too_and_the_oldest_first(self, by, begun):
        """Their names tell how often they were rotated."""
        bodies = [f"change {number}" for number in range(12)]
        for age, body in enumerate(reversed(bodies)):
            path, moment = f"{by.log}.{age}" if age else by.log, begun.timestamp() + 1000 - 10 * age
            line = logged(begun + datetime.timedelta(seconds=900 - 10 * age), body)
            if age > 1:
                path += ".gz"
                with gzip.open(path, "wt") as log:
                    log.write(line)
            else:
                with open(path, "w") as log:
                    log.write(line)
            os.utime(path, (moment, moment))
        ended, listed = self.listed(by)
        assert_ends(ended, 0, "nginx passed on 12 of them")
        assert listed == bodies
