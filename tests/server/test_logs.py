"""index-log on logs that a kill left, and on the same with a flipped bit."""
import glob
import os
import shutil
import subprocess
import time

import pytest
from support.planted import catches
from support.server.expected import assert_ends
from support.server.logs import CLAIMS, FRONT, HEAD, PAGE, Logs, bytes_of, claim
from support.server.rows import verified
from support.serving import Index, make_index

FLIPS, KILLS = 12, 5


@pytest.fixture
def logs(program, folder):
    return Logs(program, folder)


@pytest.fixture
def damaged(logs):
    """A database whose log has a flipped bit in its middle."""
    return logs.copy(logs.damaged_bit())


def both(db):
    return bytes_of(db, f"{db}-wal")


def kept(db):
    """What is in the folders in which damaged logs are kept."""
    return [bytes_of(*sorted(glob.glob(f"{it}/*"))) for it in glob.glob(f"{os.path.dirname(db)}/damaged-*")]


def counts_by(bit):
    """Whether a frame says by this bit that it ends a commit."""
    return bit >= 8 * HEAD and 4 <= (bit // 8 - HEAD) % (FRONT + PAGE) < 8


def loses(logs, bit, looked):
    """Whether the program drops something for this flipped bit; index-log has to tell just that, and how much, but for
    one commit if the bit is one by which commits are counted."""
    db = logs.copy(bit)
    ended, left = logs.log(db), logs.names(db)
    looked(ended.returncode == (0 if left == CLAIMS else 3), bit, left, ended.returncode, ended.stdout)
    told = [f"about {CLAIMS - left + more} " for more in ((-1, 0, 1) if counts_by(bit) else (0,))]
    looked(left == CLAIMS or any(it in ended.stdout for it in told), bit, left, ended.stdout)
    return left != CLAIMS


@catches("server/bin/index-log", "if log.is_open(first):", "if first < 0:",
         also=["TestDamaged::test_each_start_is_refused_and_both_files_are_kept_once",
               "TestDamaged::test_index_verify_refuses_it",
               "TestDamaged::test_an_accepted_loss_leaves_what_was_written_before_the_damage"])
@pytest.mark.slow
def test_a_flipped_bit_is_told_exactly_if_the_program_would_drop_something_for_it(logs, chance, looked, pytestconfig):
    bits = logs.bits(pytestconfig.option.rounds or FLIPS, chance)
    looked(any([loses(logs, bit, looked) for bit in bits]), "no bit lost anything")


@catches("server/bin/index-log", 'return Look(True, f"the header', 'return Look(False, f"the header')
def test_a_flipped_bit_of_the_header_is_told_as_the_loss_of_all(logs, chance, looked):
    """A bit of each of its 8 numbers, but not of its first byte, by which the program sees that a log is emptied."""
    for at in range(0, HEAD, 4):
        bit = 8 * at + chance.randrange(0 if at else 8, 32)
        looked(loses(logs, bit, looked), bit)


@catches("server/bin/index-log", "return at < len(self.data) and self.data[at] == self.salt[0]",
         "return at < len(self.data)", also=["test_a_start_with_a_sound_log"])
@pytest.mark.slow
def test_a_log_that_a_kill_left_in_the_midst_of_changes_is_not_damaged(logs, program, chance, looked, pytestconfig):
    """The next opening has all that was acknowledged."""
    for number in range(pytestconfig.option.rounds or KILLS):
        db, acknowledged = make_index(program, f"{logs.folder}/killed{number}.db"), []
        words = [program, "apply", "--db", db]
        with subprocess.Popen(words, stdin=subprocess.PIPE, stdout=subprocess.PIPE) as applying:
            until = time.monotonic() + chance.uniform(0.05, 0.5)
            while time.monotonic() < until:
                applying.stdin.write(claim(len(acknowledged)))
                applying.stdin.flush()
                acknowledged.append(applying.stdout.readline())
            # one more, which may be under way
            applying.stdin.write(claim(len(acknowledged)))
            applying.stdin.flush()
            time.sleep(chance.uniform(0, 0.01))
            applying.kill()
        ended, names = logs.log(db), logs.names(db)
        looked(ended.returncode == 0, number, ended.stdout)
        looked(names in (len(acknowledged), len(acknowledged) + 1), number, len(acknowledged), names)


@catches("server/bin/index-log", "os.execvp(command[0], command)", 'os.execvp("true", ["true"])',
         also=["TestDamaged::test_an_accepted_loss_leaves_what_was_written_before_the_damage"])
def test_a_start_with_a_sound_log(logs):
    assert_ends(logs.report(logs.copy()), 0, f"name{CLAIMS - 1} ")


class TestDamaged:
    """A start with a damaged log is refused until the loss is accepted."""

    @catches("server/bin/index-log", "if command and not status:", "if command:")
    @catches("server/bin/index-log", "{hashlib.sha256(data).hexdigest()[:12]}",
             "{hashlib.sha256(os.urandom(9)).hexdigest()[:12]}")
    @pytest.mark.told("the log of the database is damaged")
    def test_each_start_is_refused_and_both_files_are_kept_once(self, logs, damaged, looked):
        before = both(damaged)
        for _ in range(2):
            ended = logs.report(damaged)
            looked(ended.returncode == 3, ended.returncode, ended.stdout)
            for said in ("would be dropped", "both files are kept in", "--accept"):
                looked(said in ended.stdout, said, ended.stdout)
            looked(both(damaged) == before, "a refused start changes nothing")
            looked(kept(damaged) == [before], "what is kept")

    def test_index_verify_refuses_it(self, logs, damaged):
        assert_ends(verified(logs.program, damaged), 1, "would be dropped")

    @catches("server/bin/index-log", r'log.write(b"\0")', "pass")
    @catches("server/bin/index-log", "log.seek(look.gate)", "log.seek(0)")
    @catches("server/bin/index-log", "    cut(db, look)", "    cut(db, look); shutil.rmtree(folder)")
    def test_an_accepted_loss_leaves_what_was_written_before_the_damage(self, logs, damaged):
        before = both(damaged)
        assert_ends(logs.log("--accept", damaged), 0, "cut there")
        assert kept(damaged) == [before]
        ended = logs.report(damaged)
        assert_ends(ended, 0, "name0 ")
        left = [line for line in ended.stdout.split("\n") if line.startswith("name")]
        assert 0 < len(left) < CLAIMS, ended.stdout
        assert kept(damaged) == [before]

    @catches("server/bin/index-log", "folder = kept(db, data)", "cut(db, look); folder = kept(db, data)")
    @catches("server/bin/index-log", 'copy(db + end, f"{part}/{name}{end}", "--preserve=timestamps")',
             '''os.system(f"cp '{db + end}' '{part}/{name}{end}'")''')
    def test_a_loss_is_not_accepted_before_both_files_are_kept(self, logs, damaged):
        before = both(damaged)
        # files may have three quarters of the log: more than the database has, and where the log would be cut
        blocks = os.path.getsize(f"{damaged}-wal") * 3 // 4 // 512
        assert_ends(logs.log("--accept", damaged, shell=f"ulimit -f {blocks}"), 1, "index-log: cp --")
        assert (both(damaged), kept(damaged)) == (before, [])

    @catches("server/bin/index-log", "lock(database)", "pass")
    def test_a_loss_of_an_open_database_is_not_accepted(self, logs, damaged):
        with Index(logs.program, path=logs.copy()) as index:
            shutil.copy(f"{damaged}-wal", f"{index.path}-wal")
            before = bytes_of(f"{index.path}-wal")
            assert_ends(logs.log("--accept", index.path), 1, "has it open")
            assert bytes_of(f"{index.path}-wal") == before


@catches("server/bin/index-log", "if not look.is_damaged:", "if not data:")
def test_nothing_is_accepted_of_a_sound_log(logs):
    db = logs.copy()
    before = both(db)
    assert_ends(logs.log("--accept", db), 0, "nothing that was acknowledged is missing")
    assert (both(db), kept(db)) == (before, [])


@catches("server/bin/index-log", 'if is_there(f"{db}-wal") else b""', 'if db else b""')
def test_a_database_without_a_log_has_no_commit_there(logs, program):
    empty = make_index(program, f"{logs.folder}/empty.db")
    os.remove(f"{empty}-wal")
    assert_ends(logs.log(empty), 0, "no commit")


@catches("server/bin/index-log", "os.stat(db)", "pass", case="a_look",
         also=["test_where_no_database_is[an_accepted_loss]"])
@pytest.mark.parametrize("words", [[], ["--accept"]], ids=["a_look", "an_accepted_loss"])
def test_where_no_database_is(logs, words):
    none = f"{logs.folder}/none.db"
    assert_ends(logs.log(*words, none), 1, "none.db: No such file")
    assert not os.path.exists(none)
