"""index-reseal and index-backup: after a signal or a kill at any step, also in the midst of a copy, the database has
what it had, and a second run does what was asked for."""
import os
import shutil
import signal

import pytest
from support.needed import want_command
from support.places import BIN
from support.planted import catches
from support.running import kill_after, run_command
from support.server.restores import names_of
from support.server.stops import SIGNALS, ended_before, halved, is_reached
from support.serving import make_index

COMMANDS = {
    "reseal": lambda at: [f"{BIN}/index-reseal", f"{at}/index.db", f"{at}/sealed.db"],
    "backup": lambda at: [f"{BIN}/index-backup", f"{at}/index.db", f"{at}/copies"],
}


@pytest.fixture
def made(program, folder):
    """A database whose log has a claim, and a folder for copies."""
    want_command("sqlite3", "sqlite3")
    os.makedirs(f"{folder}/made/copies")
    kill_after(program, make_index(program, f"{folder}/made/index.db"),
               [b'{"at":1,"token":"office","do":"claim","name":"later"}\n'])
    return f"{folder}/made"


def results(at):
    """The databases that the command made, and what else it left."""
    found = [f"{at}/sealed.db", *(f"{at}/copies/{it}" for it in sorted(os.listdir(f"{at}/copies")))]
    whole = [it for it in found if os.path.exists(it) and it.endswith(".db")]
    known = {"index.db", "index.db-wal", "index.db-shm", "copies", "sealed.db"}
    left = [it for it in os.listdir(at) if it not in known] + [it for it in found[1:] if it not in whole]
    return whole, left


def look_again(program, at, command, number, looked, ended):
    """What is there after a run that ended so, and after one more."""
    said = command, number, ended.returncode, ended.stdout
    looked(names_of(f"{at}/index.db", os.path.dirname(at)) == ["later"], *said)
    whole, left = results(at)
    looked(all(names_of(it, os.path.dirname(at)) == ["later"] for it in whole), *said)
    looked(number == signal.SIGKILL or left == [], left, *said)
    if command == "reseal" and whole:
        # it was done: the page says to remove the file and to begin again
        os.remove(f"{at}/sealed.db")
    again = run_command(COMMANDS[command](at), INDEX=program)
    whole, left = results(at)
    looked(again.returncode == 0 and left == [] and len(whole) > 0, again.stdout, left, *said)
    looked(names_of(f"{at}/index.db", os.path.dirname(at)) == ["later"], *said)
    shutil.rmtree(at)


@catches("server/bin/index-reseal", "        with held():", "        if True:", case="reseal-2")
@catches("server/bin/index-backup", "        with held():", "        if True:", case="backup-2")
@catches("server/bin/index-backup", 'for old in kept(folder, f".part{end}"):', 'for old in kept(folder, ".part"):',
         case="backup-9")
@pytest.mark.slow
@pytest.mark.timeout(1800)
@pytest.mark.parametrize("number", SIGNALS)
@pytest.mark.parametrize("command", COMMANDS)
def test_stopped_at_each_step_nothing_is_lost_and_a_second_run_does_it(program, made, folder, looked, command, number):
    step, has_more = 0, True
    while has_more:
        at = shutil.copytree(made, f"{folder}/{step}")
        ended = ended_before(step, number, COMMANDS[command](at), INDEX=program)
        has_more = is_reached(ended)
        looked(ended.returncode == (-number if has_more else 0), command, step, number, ended.returncode, ended.stdout)
        look_again(program, at, command, number, looked, ended)
        step += 1
    print(f"{command}: {step - 1} steps by {number.name}")
    assert step > 2


@catches("server/bin/index-backup", "removed(part)", "pass", case="backup-2")
@pytest.mark.parametrize("number", SIGNALS)
@pytest.mark.parametrize("command", COMMANDS)
def test_stopped_in_the_midst_of_a_copy_nothing_is_lost_and_a_second_run_does_it(program, made, folder, looked, command,
                                                                                 number):
    for copy in range(2):
        at = shutil.copytree(made, f"{folder}/{copy}")
        os.mkdir(f"{folder}/{number}-{copy}")
        ended = run_command(COMMANDS[command](at), INDEX=program, **halved(f"{folder}/{number}-{copy}", copy, number))
        looked(ended.returncode == -number, command, copy, number, ended.returncode, ended.stdout)
        look_again(program, at, command, number, looked, ended)
