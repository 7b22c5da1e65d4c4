"""Each program of server/ as it is run, also by a link from elsewhere."""
import os
import runpy
import subprocess
import sys
import threading

import pytest
from support.places import BIN
from support.planted import catches
from support.running import run_command
from support.server.stand_ins import stand_ins

PYTHON = sorted(name for name in os.listdir(BIN) if name not in ("index-alarm", "__pycache__"))


@pytest.mark.parametrize("name", PYTHON)
def test_a_program_runs_by_a_link_and_tells_its_use(tmp_path, name):
    os.symlink(f"{BIN}/{name}", tmp_path / name)
    ended = subprocess.run([sys.executable, "-B", tmp_path / name, "--help"], stdout=subprocess.PIPE, text=True,
                           stderr=subprocess.STDOUT, timeout=60)
    first = runpy.run_path(f"{BIN}/{name}")["__doc__"].split("\n")[0]
    assert ended.returncode == 0 and first in ended.stdout, ended.stdout


@pytest.mark.parametrize("name, told", [
    ("index-alarms", ["/var/lib/index-alarms/state.json", "/var/backups/index", "/var/backups/index",
                      "/var/lib/index/index.db", "/etc/nginx/conf.d/packages.conf",
                      "/var/lib/index-uncache/place", "/var/lib/index-punch", "/var/lib/index-fronts/banned",
                      "/run/index-alarm"]),
    ("index-uncache-follow", ["/var/cache/nginx/index-files",
                              "/var/lib/index-uncache/place", "/etc/nginx/conf.d/packages.conf"])])
def test_the_use_ends_its_lines_by_what_is_taken_if_nothing_is_given(name, told):
    ended = subprocess.run([sys.executable, "-B", f"{BIN}/{name}", "--help"], stdout=subprocess.PIPE, text=True,
                           env={**os.environ, "COLUMNS": "200"}, timeout=60)
    assert [it.split()[-1] for it in ended.stdout.splitlines() if " /" in it] == told, ended.stdout


@pytest.mark.parametrize("name", ["index-backup", "index-migrate", "index-reseal", "index-restore",
                                  "index-verify"])
def test_a_program_finds_the_others_beside_its_own_file(tmp_path, name):
    os.symlink(f"{BIN}/{name}", tmp_path / name)
    assert runpy.run_path(str(tmp_path / name))["HERE"] == os.path.realpath(BIN)


@pytest.mark.parametrize("name", PYTHON)
def test_a_program_is_short_and_can_be_read_from_the_top(name):
    with open(f"{BIN}/{name}") as kept:
        lines = kept.read().splitlines()
    assert len(lines) < 400 and lines[-2] == 'if __name__ == "__main__":' and lines[-1].startswith("    sys.exit(")


# a program, its words with a file and a folder in them, and the status and what the last line says
MISTAKES = [
    ("index-alarm", ["--none"], 2, "sent."),
    ("index-cluster", [], 2, "and 2 if the command line is wrong."),
    ("index-take", ["{file}", "{file}"], 2, "line is wrong."),
    ("index-leave", ["{file}", "{file}"], 2, "is wrong."),
    ("index-reseal", ["{file}"], 2, "and 2 if the command line is wrong."),
    ("index-verify", [], 2, "command line is wrong."),
    ("index-backup", ["{folder}/none", "{folder}"], 1, "No such file or directory"),
    ("index-backup", ["{file}", "{file}"], 1, "Not a directory"),
    ("index-health", ["none"], 2, "none is not an address such as http://127.0.0.1:8080"),
    ("index-health", ["http://127.0.0.1:99999"], 2, "is not an address"),
    ("index-punch", ["{folder}/none", "{folder}", "--notes", "{folder}/notes"], 1, "{folder}/none: no such file"),
    ("index-punch", ["{folder}/none/db", "{folder}", "--notes", "{folder}/notes"], 1, "No such file or directory"),
    ("index-punch", ["{file}", "{folder}", "--notes", "{file}"], 1, "File exists"),
    ("index-log", ["{folder}"], 1, "{folder}: a folder, and not a database"),
    ("index-log", ["{file}", "--"], 2, "nothing is lost."),
    ("index-log", ["{file}", "--", "{folder}/none"], 1, "index-log: {folder}/none: No such file or directory"),
    ("index-metrics", ["{file}", "{folder}", "--url", "none"], 2, "none is not an address"),
    ("index-metrics", ["{file}", "{folder}", "--url", "http://127.0.0.1:1", "--out", "{folder}"], 1, "Is a directory"),
    ("index-migrate", ["--volume", "{folder}/none/index.db"], 1, "no such folder"),
    ("index-migrate", ["{file}"], 2, "one of the arguments --volume --one-file is required"),
    ("index-publishers", ["{folder}/none", "{folder}"], 1, "No such file or directory"),
    ("index-publishers", ["{file}", "{folder}"], 1, "{file}, line 1: a section such as `[publisher frob]` has to come"),
    ("index-publishers", ["{file}"], 2, "python3-cryptography."),
    ("index-reseal", ["{file}", "{folder}/none/new"], 1, "No such file or directory"),
    ("index-restore", ["{file}", "--url", "none"], 2, "none is not an address"),
    ("index-restore", ["{file}", "--db", "{folder}/none/index.db"], 1, "no such folder"),
    ("index-legacy-upload", ["--listen", "none"], 2, "none is not HOST:PORT"),
    ("index-uncache", ["frob", "--cache", "{file}"], 2, "is not there; name nginx's folder by --cache"),
    ("index-uncache-follow", ["--log", "{folder}", "--cache", "{folder}", "--place", "{folder}/place"], 1,
     "Is a directory"),
    ("index-verify", ["{folder}"], 1, "no such file"),
]


@catches("server/lib/package_index/addresses.py", "if not is_well:", "if not word:")
@catches("server/bin/index-cluster", "words_of(__doc__, 1, 2)", "words_of(__doc__, 0, 2)")
@catches("server/bin/index-log", 'raise Refused(f"{command[0]}: {end.strerror}") from None', "raise")
@pytest.mark.parametrize("name, words, status, said", MISTAKES)
def test_a_mistake_is_answered_in_a_sentence(tmp_path, name, words, status, said):
    (tmp_path / "folder").mkdir()
    (tmp_path / "file").write_text("none\n")
    places = {"file": f"{tmp_path}/file", "folder": f"{tmp_path}/folder"}
    ended = subprocess.run([f"{BIN}/{name}", *(it.format(**places) for it in words)], stdout=subprocess.PIPE, text=True,
                           stderr=subprocess.STDOUT, stdin=subprocess.DEVNULL, timeout=60)
    assert ended.returncode == status and "Traceback" not in ended.stdout, ended.stdout
    assert said.format(**places) in ended.stdout.splitlines()[-1], ended.stdout


@catches("server/lib/package_index/ends.py", "        sys.stdout.flush()", "        pass", case="index-metrics-words0")
@catches("server/lib/package_index/ends.py", '        tell("")', "        pass", case="index-log-words1")
@pytest.mark.parametrize("name, words", [
    ("index-metrics", ["{}/none", "{}", "--url", "http://127.0.0.1:1"]), ("index-log", ["{}/file"])])
def test_what_can_not_be_printed_is_told_in_a_sentence(tmp_path, name, words):
    """As into a file on a full disk, where Python prints that it ignores an exception, and ends with status 120."""
    (tmp_path / "file").touch()
    ended = run_command(["sh", "-c", '"$@" > /dev/full', "sh", f"{BIN}/{name}", *(it.format(tmp_path) for it in words)])
    assert (ended.returncode, ended.stdout) == (1, f"{name}: [Errno 28] No space left on device\n")


@catches("server/lib/package_index/ends.py", '        sys.stderr = open(os.devnull, "w")', "        raise",
         case="index-health-words0-3",
         also=["test_a_status_stays_though_what_is_wrong_can_not_be_written[index-alarms-words3-9]"])
@pytest.mark.parametrize("name, words, status", [
    ("index-health", ["--patience", "0.05", "http://127.0.0.1:1"], 3),
    ("index-uncache", ["frob", "--cache", "{}/none"], 2), ("index-backup", ["{}/none", "{}"], 1),
    ("index-alarms", ["--state", "{}/state", "--backups", "{}"], 9)])
def test_a_status_stays_though_what_is_wrong_can_not_be_written(tmp_path, name, words, status):
    """As into a file on a full disk, of which the status tells."""
    path = stand_ins(f"{tmp_path}/commands", systemctl="")
    (tmp_path / "state").write_text('{"begun": 0, "day": [], "raised": {}}')
    words = [f"{BIN}/{name}", *(it.format(tmp_path) for it in words)]
    assert run_command(["sh", "-c", '"$@" 2> /dev/full', "sh", *words], PATH=path).returncode == status


@catches("server/bin/index-uncache-follow", 'say(NAME, f"{it} is not there yet")', "pass")
def test_what_is_not_there_yet_is_told_and_waited_for(tmp_path):
    words = [f"--{it}={tmp_path}/{it}" for it in ("log", "cache", "place")]
    with subprocess.Popen([f"{BIN}/index-uncache-follow", *words], stderr=subprocess.PIPE, text=True) as following:
        # it says nothing more and goes on: without a line it is ended
        ending = threading.Timer(60, following.kill)
        ending.start()
        told = [following.stderr.readline() for _ in "ab"]
        ending.cancel()
        following.terminate()
    assert told == [f"index-uncache-follow: {tmp_path}/{it} is not there yet\n" for it in ("log", "cache")]


def test_what_drbd_calls_says_so_to_a_person():
    path = f"{os.path.dirname(BIN)}/two-machines/index-fence"
    ended = subprocess.run([path], stderr=subprocess.PIPE, text=True, timeout=60)
    assert (ended.returncode, ended.stderr) == (1, "index-fence: DRBD calls this, and names a resource and a peer\n")
