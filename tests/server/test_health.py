"""index-health: an index that fails or is silent is restarted, and one that is not there is told of."""
import os
import re
import shutil
import socket
import subprocess
import sys
import time

import pytest
from support.places import BIN, SERVER
from support.planted import catches
from support.ports import free_port
from support.running import run_command
from support.server.expected import assert_ends
from support.server.stand_ins import called, stand_ins, written
from support.server.waits import wait_for
from support.server.watched import HEALTH, Closes, Failed, look_at_health, unit
from support.serving import Running

RESTARTED = "systemctl try-restart index.service\n"


@pytest.fixture
def bin_folder(folder):
    return f"{folder}/bin"


@pytest.fixture
def path(bin_folder):
    return stand_ins(bin_folder, systemctl="")


@catches("server/bin/index-health", "return Look(WELL) if reply.status == 200 else",
         "return Look(WELL) if reply.status == 500 else",
         also=["test_an_index_that_fails_is_restarted", "TestStart::test_a_start_that_succeeds",
               "TestStart::test_a_start_that_fails"])
def test_an_index_that_answers_is_well_and_is_not_restarted(index, path, bin_folder):
    assert_ends(look_at_health(path, f"http://127.0.0.1:{index.port}"), 0)
    assert called(bin_folder) == ""


@catches("server/bin/index-health", 'return Look(ABSENT, f"nobody listens: {end!r}")',
         'return Look(RESTART, f"nobody listens: {end!r}")')
@pytest.mark.told("nobody listens for a minute")
def test_an_index_that_is_away_is_waited_for_and_is_not_restarted(path, bin_folder):
    begun = time.monotonic()
    ended = look_at_health(path, "--patience", "3", f"http://127.0.0.1:{free_port()}")
    assert_ends(ended, 3, "nobody listens")
    assert time.monotonic() - begun > 3
    assert called(bin_folder) == ""


@pytest.mark.told("the index fails")
def test_an_index_that_fails_is_restarted(path, bin_folder):
    with Failed() as failed:
        assert_ends(look_at_health(path, failed.url), 8, "500", "Store")
    assert called(bin_folder) == RESTARTED


@catches("server/bin/index-health", 'return Look(RESTART, f"no answer: {end!r}")', "return Look(WELL)")
@pytest.mark.told("the index fails")
def test_a_silent_index_is_restarted(path, bin_folder):
    with socket.create_server(("127.0.0.1", 0)) as silent:
        ended = look_at_health(path, "--patience", "1", f"http://127.0.0.1:{silent.getsockname()[1]}")
    assert_ends(ended, 8, "no answer")
    assert called(bin_folder) == RESTARTED


# A disk of this size at $1, for what stands behind it, and for nothing else.
DISK = """mount -t tmpfs -o size=1m none "$1" && shift && exec "$@" """


@catches("server/bin/index-health", "if found.status == WELL:", "if found.status == RESTART:",
         also=["server/test_unit_health.py::test_room_is_looked_at_only_if_the_index_is_well"])
@pytest.mark.told("a disk has little room")
def test_a_disk_with_little_room_is_told_and_the_index_is_not_restarted(index, path, bin_folder, folder):
    small, url = f"{folder}/small", f"http://127.0.0.1:{index.port}"
    os.mkdir(small)
    alone = ("unshare", "--mount", "--propagation", "private", "sh", "-c", DISK, "sh", small)
    if run_command([*alone, "true"]).returncode:
        pytest.skip("this machine lets nobody mount a disk")
    words = ("--room", f"{folder}/none", "--room", small)
    assert_ends(look_at_health(path, *words, url, under=alone), 9, f"make room: {small} has 1 MiB left")
    assert_ends(look_at_health(path, *words, "--least", "1", url, under=alone), 0)
    assert called(bin_folder) == ""


@pytest.mark.parametrize("was_there", [True, False])
def test_what_a_look_did_not_come_to_stays_told(path, folder, was_there):
    """While the index is gone, or fails, nobody looks at the disks; of several indexes another look may have found
    little room."""
    full = f"{folder}/full"
    if was_there:
        with open(full, "w"):
            pass
    with Failed() as failed:
        assert_ends(look_at_health(path, failed.url, full=full), 8)
    assert_ends(look_at_health(path, "--patience", "0.5", f"http://127.0.0.1:{free_port()}", full=full), 3)
    assert os.path.exists(full) == was_there


def rooms_of(text):
    command = re.search(r"^ExecStart=((?:.*\\\n)*.*)$", text, re.M)[1]
    return re.findall(r"--room (\S+)", command)


def test_the_unit_looks_at_each_disk_that_matters():
    assert rooms_of(unit("index-health.service")) == [
        "/var/lib/index", "/var/cache/nginx", "/var/log", "/var/backups/index"]


@catches("server/debian/templates.py", 'is_changed = is_run and "--room" not in line', "is_changed = is_run")
def test_the_template_looks_into_no_folder_of_one_index(folder):
    """Its user may not, and the disks are the same."""
    made = shutil.copytree(f"{SERVER}/systemd", f"{folder}/units")
    assert_ends(run_command([sys.executable, f"{SERVER}/debian/templates.py", made]), 0)
    with open(f"{made}/index-health@.service") as kept:
        text = kept.read()
    assert rooms_of(text) == rooms_of(unit("index-health.service")) and "127.0.0.1:%i\n" in text, text


class TestStart:
    """index-health --start waits for the first answer, and ends if the program did."""

    def test_a_start_that_succeeds(self, index):
        words = [*HEALTH, "--start", str(index.process.pid), f"http://127.0.0.1:{index.port}"]
        assert_ends(run_command(words), 0)

    @catches("server/bin/index-health", "while is_there(process):", "if is_there(process):")
    @catches("server/bin/index-health", "return False", "return True")
    def test_a_start_that_hangs_is_waited_for_until_the_program_ends(self):
        with Running(["sleep", "300"]) as hung, Closes() as closes:
            words = [*HEALTH, "--start", str(hung.process.pid), f"http://127.0.0.1:{closes.port}"]
            with Running(words, stdout=subprocess.PIPE, stderr=subprocess.STDOUT) as waits:
                assert wait_for(lambda: len(closes.seen) > 2)
                hung.process.kill()
                hung.process.wait()
                said = waits.process.communicate(timeout=60)[0]
        assert (waits.process.returncode, b"ended before" in said) == (3, True), said

    def test_a_start_that_fails(self):
        with Failed() as failed:
            assert_ends(run_command([*HEALTH, "--start", str(os.getpid()), failed.url]), 8, "500")

    @catches("server/lib/package_index/start.py", "FIRST = 10.0", "FIRST = 100.0")
    @pytest.mark.slow
    def test_after_ten_seconds_it_says_how_far_the_start_is(self, folder):
        """Of a database of 4 GiB, which is a hole."""
        with open(f"{folder}/index.db", "wb") as made:
            made.truncate(4 << 30)
        with Running(["sleep", "300"]) as hung, Closes() as closes:
            words = [*HEALTH, "--start", str(hung.process.pid), "--db", made.name, f"http://127.0.0.1:{closes.port}"]
            with Running(words, stderr=subprocess.PIPE) as waits:
                said = waits.process.stderr.readline()
                hung.process.kill()
                hung.process.wait()
                waits.process.communicate(timeout=60)
        assert re.match(rb"index-health: starting for 0:1\d(: \d+)?,? of about 24 s of a processor", said), said

    @catches("server/bin/index-log", "        if in_journal():", "        if not in_journal():")
    def test_the_journal_has_its_length_and_its_seconds_before_it_begins(self, program, index_file, folder):
        """By the command of the unit, as systemd runs it."""
        command = re.search(r"^ExecStart=((?:[^\\\n]|\\\n)*)$", unit("index.service"), re.M)[1]
        given = {"/usr/local/bin/index-log": f"{BIN}/index-log", "/usr/local/bin/index": program,
                 "/var/lib/index/index.db": index_file, "127.0.0.1:8080": "127.0.0.1:0"}
        words = [given.get(it, it) for it in command.replace("\\\n", " ").split()]
        with open(f"{folder}/journal", "w+") as journal:
            at = os.fstat(journal.fileno())
            with Running([sys.executable, *words], stdout=journal, stderr=journal,
                         env={**os.environ, "JOURNAL_STREAM": f"{at.st_dev}:{at.st_ino}"}):
                assert wait_for(lambda: "listening on" in written(journal.name))
            said = written(journal.name).splitlines()
        size = os.path.getsize(index_file) / (1 << 20)
        line = (f"index-log: the index reads {size:.1f} MiB, and then answers: in about 1 s, and up to four times as "
                "long on a busy machine")
        assert line in said and said.index(line) < len(said) - 1 and said[-1].startswith("listening on"), said

    def test_the_unit_waits_and_not_for_ever(self):
        bound = re.search(r"^TimeoutStartSec=(\d+)min$", unit("index.service"), re.M)
        assert bound and int(bound[1]) >= 5
        assert re.search(r"^ExecStartPost=\S*/index-health --start \$MAINPID --db /var/lib/index/index\.db http",
                         unit("index.service"), re.M)

    def test_no_start_succeeds_by_an_answer_of_another_program_at_its_port(self, index):
        script = re.search(r"^ExecStartPre=/bin/bash -c '(.*?)'$", unit("index.service"), re.M | re.S)[1]
        for port, status, said in ((free_port(), 0, ""), (index.port, 1, f"another program has port {index.port}")):
            ended = run_command(["bash", "-c", script.replace("\\\n", " ").replace("8080", str(port))])
            assert_ends(ended, status, said)

    @catches("server/debian/templates.py", '("127.0.0.1/8080", "127.0.0.1/%i"),', "")
    def test_each_of_several_looks_at_its_own_port(self, folder):
        made = shutil.copytree(f"{SERVER}/systemd", f"{folder}/units")
        assert_ends(run_command([sys.executable, f"{SERVER}/debian/templates.py", made]), 0)
        with open(f"{made}/index@.service") as kept:
            text = kept.read()
        assert "/dev/tcp/127.0.0.1/%i;" in text and "8080" not in re.sub("^#.*$", "", text, flags=re.M)
