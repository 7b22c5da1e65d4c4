"""index-restore: a signal, or a kill, at each of its steps leaves what was there or what was asked for, and it says
which."""
import glob
import os
import re
import shutil
import signal
import sys
import time

import pytest
from support.planted import catches
from support.server.expected import assert_ends
from support.server.stops import FAILING, KEPT, SIGNALS, each_step, halved, make_both, serving
from support.server.waits import wait_for


@pytest.fixture
def made(program, folder):
    return make_both(program, f"{folder}/made")


def its_options(restores):
    """By which the way back leads to this index, and not to the one of the defaults."""
    return f"--db {restores.index.path} --url http://127.0.0.1:{restores.index.port} --unit index.service"


def way_back(restores, said):
    """The copy that the last line names; None if it is another line, or of another index."""
    found = re.search(rf"\nTo go back to them: index-restore {re.escape(its_options(restores))} (\S+)\n$", said)
    return found and found[1]


@catches("server/lib/package_index/ends.py", "signal.signal(each, signal.SIG_IGN)", "pass")
@pytest.mark.slow
@pytest.mark.timeout(1800)
@pytest.mark.parametrize("number", [signal.SIGINT, signal.SIGTERM, signal.SIGHUP])
def test_a_signal_at_each_step_leaves_what_was_or_what_was_asked_for_and_says_which(made, program, folder, looked,
                                                                                   number):
    seen = []
    for step, restores, ended in each_step(program, made, folder, number):
        names = restores.names()
        said = step, names, restores.left(), restores.manager.asked, ended.returncode, ended.stdout
        looked(restores.is_served(), *said)
        if ended.returncode == 0:
            looked(names == ["kept"] and "is in its place" in ended.stdout, *said)
            back = way_back(restores, ended.stdout)
            looked(back and restores.names(back) == ["later"], *said)
            looked("1. Changes since 2026-01-01" in ended.stdout and len(restores.left()) == 1, *said)
        else:
            looked(ended.returncode == -number and names == ["later"] and restores.left() == [], *said)
            looked("nothing was restored" in ended.stdout, *said)
            looked(os.path.exists(f"{restores.folder}/with-pypi.conf"), *said)
        seen.append(names)
    # it can be ended until the index is stopped, and not any more
    looked(seen == sorted(seen, reverse=True) and ["kept"] in seen and ["later"] in seen, seen)
    print(f"index-restore: {len(seen)} steps by {number.name}")


@catches("server/bin/index-restore", "if is_there(db) and kept.read() == known_as(copy):", "if not copy:")
@catches("server/bin/index-restore", 'if put_names_back(db, aside, f"{beside}/index.db"):', "if aside:")
@pytest.mark.slow
@pytest.mark.timeout(1800)
def test_killed_at_each_step_it_is_finished_or_begun_again_by_the_same_command(made, program, folder, looked):
    """And the way back that it names leads to what was there; a copy that is in its place is not put there twice."""
    seen = []
    for step, restores, ended in each_step(program, made, folder, signal.SIGKILL):
        names = restores.names()
        looked(ended.returncode == -signal.SIGKILL and names in (["later"], None, ["kept"]), step, names, ended.stdout)
        again = restores.run()
        said = step, names, restores.left(), ended.stdout, again.stdout
        looked(again.returncode == 0 and restores.names() == ["kept"] and restores.is_served(), *said)
        back = way_back(restores, again.stdout)
        looked(back and restores.names(back) == ["later"], *said)
        looked(len(restores.left()) == 1 and os.stat(back).st_nlink == 1, *said)
        looked(("only finishes it" in again.stdout) == (names == ["kept"]), *said)
        looked("PyPI was taken off" in again.stdout and not os.path.exists(f"{folder}/{step}/cache/{KEPT}"), *said)
        seen.append(names)
    looked([it for at, it in enumerate(seen) if it not in seen[:at]] == [["later"], None, ["kept"]], seen)
    print(f"index-restore: {len(seen)} steps by SIGKILL")


@pytest.fixture
def restores(made, program):
    with serving(program, made) as found:
        yield found


@catches("server/bin/index-restore", "shutil.rmtree(beside, ignore_errors=True)", "pass")
@catches("server/bin/index-restore", "shutil.rmtree(beside, ignore_errors=True)", "pass", case="2")
@pytest.mark.parametrize("number", SIGNALS)
def test_stopped_in_the_midst_of_its_copy_it_leaves_what_was_and_a_second_run_does_it(restores, number):
    ended = restores.run(half=halved(restores.folder, 0, number))
    assert ended.returncode == -number and restores.names() == ["later"] and restores.is_served(), ended.stdout
    assert number == signal.SIGKILL or restores.left() == [] and "nothing was restored" in ended.stdout
    assert_ends(restores.run(), 0, "is in its place")
    assert restores.names() == ["kept"] and restores.is_served() and len(restores.left()) == 1


@catches("server/bin/index-restore",
         'with alone(folder, AT_WORK if is_there(f"{db}{VOLUME}") else "index-restore"):', "if words.copy:")
@pytest.mark.timeout(60)
def test_of_two_at_once_the_second_is_refused_and_the_first_ends_well(restores):
    """The second begins when the first has copied and stops the index."""
    seconds, do = [], restores.manager.do

    def begins_another(asked):
        if asked.startswith("stop") and not seconds:
            seconds.append(restores.run())
        do(asked)

    restores.manager.do = begins_another
    ended = restores.run()
    assert_ends(seconds[0], 1, f"{restores.folder}/var: another index-restore is at work there")
    assert_ends(ended, 0, "the index answers")
    assert restores.names() == ["kept"] and restores.is_served()


@catches("server/lib/package_index/exchange.py", "put_names_back(db, aside, made)", "pass")
def test_a_rename_that_fails_leaves_the_old_database_and_its_log(restores):
    ended = restores.run(sys.executable, "-c", FAILING, "index.db")
    assert_ends(ended, 1, "No space left on device")
    assert (restores.names(), restores.left()) == (["later"], []) and restores.is_served()
    assert os.path.exists(f"{restores.folder}/with-pypi.conf")


@catches("server/lib/package_index/ends.py", 'sys.stdout = open(os.devnull, "w")', "raise")
def test_a_copy_that_is_in_its_place_stays_so_when_nobody_reads_what_is_told(restores):
    """As when a terminal was closed. What is to be done is kept beside the old database."""
    ended = restores.run("sh", "-c", 'exec "$@" > /dev/full', "sh")
    assert_ends(ended, 0)
    assert restores.names() == ["kept"] and restores.is_served()
    with open(f"{restores.folder}/var/{restores.left()[0]}/forgotten") as kept:
        assert "1. Changes since 2026-01-01" in kept.read()


@catches("server/bin/index-restore", "when its copy was in its place; what was there before it is in {aside}", "once")
@pytest.mark.slow
def test_what_a_killed_restore_of_another_copy_put_aside_is_named(restores):
    """The one that follows puts its own copy in place, and tells of both ways back."""
    last = 0
    while restores.names() != ["kept"]:
        restores.ended_before(last, signal.SIGKILL)
        last += 1
    other = shutil.copy(restores.copy, f"{restores.folder}/copies/other.db")
    first, = (it for it in restores.left() if it.startswith("before"))
    # the folders of both are named by the second
    wait_for(lambda: time.strftime("before-%Y%m%dT%H%M%SZ", time.gmtime()) != first)
    ended = restores.run(copy=other)
    assert_ends(ended, 0, "killed when its copy was in its place",
                f"what was there before it is in {restores.folder}/var/{first}")
    assert restores.names(f"{restores.folder}/var/{first}/index.db") == ["later"]


@catches("server/bin/index-restore", 'if os.path.exists(f"{aside}/index.db"):', "if aside:")
def test_the_way_back_without_a_database_is_the_newest_that_was_put_aside(restores):
    assert_ends(restores.run(), 0)
    before, = restores.left()
    restores.index.stop()
    for path in glob.glob(f"{restores.index.path}*"):
        os.remove(path)
    wait_for(lambda: time.strftime("before-%Y%m%dT%H%M%SZ", time.gmtime()) != before)
    assert_ends(restores.run(), 0, "No database was in its place.",
                f"To go back to it: index-restore {its_options(restores)} {restores.folder}/var/{before}/index.db\n")
