"""index-backup, index-migrate and index-restore of an index with a volume, ended by a signal before each of their
steps: its files stay, and the same command then does what was asked for. A stand-in is in the place of the program."""
import glob
import os
import shutil
import signal

import pytest
from support.needed import want_command
from support.places import BIN
from support.planted import catches
from support.running import run_command
from support.server.pairs import add_file, delete_file, files_of, make_database
from support.server.stand_ins import stand_ins
from support.server.stops import ended_before, is_reached

pytestmark = [pytest.mark.slow, pytest.mark.timeout(1800)]
OLD = {"frob-1.0.tar.gz": b"one" * 100, "frob-1.1.tar.gz": b"two" * 100}
NEW = {"frob-1.1.tar.gz": OLD["frob-1.1.tar.gz"], "frob-1.2.tar.gz": b"three" * 100}
NONE = "/none/at/all"
RESTORE = "--unit", "none", "--url", "http://127.0.0.1:1", "--with-pypi", NONE, "--changes", NONE, "--cache"
KEPT = "copies/index-20260101T000000Z.db"
# the words of a command, the version of its index, and which files this has in the end
COMMANDS = {
    "backup": (lambda at: [f"{BIN}/index-backup", f"{at}/var/index.db", f"{at}/copies"], 3, NEW),
    "volume": (lambda at: [f"{BIN}/index-migrate", "--volume", f"{at}/var/index.db"], 2, NEW),
    "one_file": (lambda at: [f"{BIN}/index-migrate", "--one-file", f"{at}/var/index.db"], 3, NEW),
    "restore": (lambda at: [f"{BIN}/index-restore", *RESTORE, f"{at}/cache", "--db", f"{at}/var/index.db",
                            f"{at}/{KEPT}"], 3, OLD),
}


@pytest.fixture
def setting(tmp_path):
    want_command("sqlite3", "sqlite3")
    stand_ins(f"{tmp_path}/bin", index="")
    return {"INDEX": f"{tmp_path}/bin/index"}


@pytest.fixture
def made(tmp_path, setting):
    """A function that makes an index of a version, of which an older copy is kept."""
    def make(version):
        at = f"{tmp_path}/made"
        for name in ("var", "copies", "cache"):
            os.makedirs(f"{at}/{name}")
        make_database(f"{at}/var/index.db", OLD, version)
        run_command([f"{BIN}/index-backup", f"{at}/var/index.db", f"{at}/copies"], **setting)
        copy, = (f"{at}/copies/{it}" for it in os.listdir(f"{at}/copies") if it.endswith(".db"))
        # of another second than a run that follows, with the copy of its volume
        stamp, kept = copy[:-len(".db")], f"{at}/{KEPT[:-len('.db')]}"
        for path in glob.glob(f"{stamp}.*"):
            os.rename(path, f"{kept}{path[len(stamp):]}")
        if os.path.lexists(f"{kept}.db-volume"):
            os.remove(f"{kept}.db-volume")
            os.symlink(f"{os.path.basename(kept)}.volume", f"{kept}.db-volume")
        add_file(f"{at}/var/index.db", "frob-1.2.tar.gz", NEW["frob-1.2.tar.gz"])
        delete_file(f"{at}/var/index.db", "frob-1.0.tar.gz")
        return at
    return make


def copies(at):
    """The files of each kept database, oldest first."""
    names = sorted(it for it in os.listdir(f"{at}/copies") if it.endswith(".db"))
    return [files_of_copy(f"{at}/copies/{it}") for it in names]


def files_of_copy(path):
    volume = f"{path}-volume"
    assert not os.path.lexists(volume) or os.path.isfile(volume), f"{volume} leads nowhere"
    return files_of(path)


def left(at):
    """What is there of a run that did not end, or did not tidy up."""
    return [it for name in ("var", "copies") for it in os.listdir(f"{at}/{name}")
            if it.startswith("restoring") or ".part" in it]


def look(at, wanted, number, *said):
    """What is there after a run that was ended."""
    path = f"{at}/var/index.db"
    if number == signal.SIGKILL and not os.path.exists(path):
        aside, = (it for it in os.listdir(f"{at}/var") if it.startswith("before"))
        path = f"{at}/var/{aside}/index.db"
    assert files_of(path) in (NEW, wanted), said
    assert number == signal.SIGKILL or left(at) == [], (left(at), *said)
    assert copies(at)[0] == OLD and all(it == NEW for it in copies(at)[1:]), said


@catches("server/lib/package_index/exchange.py", "    for it in names:\n        if not is_there(it):",
         "    for it in names:\n        if is_there(it):", case="restore-9")
@catches("server/lib/package_index/volume_copies.py", 'if is_alone or name.endswith(f".volume{NOTE}.part"):',
         "if is_alone:", case="backup-15")
@pytest.mark.parametrize("number", [signal.SIGTERM, signal.SIGKILL])
@pytest.mark.parametrize("command", COMMANDS)
def test_stopped_at_each_step_no_file_is_lost_and_a_second_run_does_it(made, setting, tmp_path, looked, command,
                                                                       number):
    words, version, wanted = COMMANDS[command]
    source, step, has_more = made(version), 0, True
    while has_more:
        at = shutil.copytree(source, f"{tmp_path}/{step}", symlinks=True)
        ended = ended_before(step, number, words(at), **setting)
        has_more, said = is_reached(ended), (command, step, ended.returncode, ended.stdout)
        # once the new files are in their place it goes on to the end
        looked(ended.returncode == -number or files_of(f"{at}/var/index.db") == wanted and not ended.returncode, *said)
        looked(has_more or not ended.returncode, *said)
        look(at, wanted, number, *said)
        again = run_command(words(at), **setting)
        looked(again.returncode == 0 and left(at) == [], again.stdout, *said)
        looked(files_of(f"{at}/var/index.db") == wanted, *said)
        looked(all(files_of(it) in (NEW, wanted) for it in glob.glob(f"{at}/var/before-*/index.db")), *said)
        looked(command != "backup" or copies(at)[0] == OLD and copies(at)[-1] == NEW, *said)
        shutil.rmtree(at)
        step += 1
    print(f"{command}: {step - 1} steps by {number.name}")
    assert step > 10
