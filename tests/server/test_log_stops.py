"""index-log and index-uncache: after a signal or a kill at any step, also in the midst of a copy, nothing is lost, and
a second run does what was asked for."""
import glob
import os
import shutil
import signal

import pytest
from support.places import BIN
from support.planted import catches
from support.running import run_command
from support.server.caches import keys, make_cache
from support.server.logs import CLAIMS, Logs, bytes_of
from support.server.stops import SIGNALS, ended_before, halved, is_reached

# the words behind index-log, and the status of a run that nothing stops
RUNS = {"accept": (lambda at: ["--accept", f"{at}/index.db"], 0),
        "start": (lambda at: [f"{at}/index.db", "--", "true"], 3)}


@pytest.fixture
def logs(program, folder):
    return Logs(program, folder)


@pytest.fixture
def damaged(logs):
    """A folder with a database whose log has a flipped bit in its middle."""
    return os.path.dirname(logs.copy(logs.damaged_bit()))


def both(at):
    return bytes_of(f"{at}/index.db", f"{at}/index.db-wal")


def kept(at):
    """What is in the folders of damaged logs that a person is told of."""
    return [bytes_of(*sorted(glob.glob(f"{it}/*"))) for it in glob.glob(f"{at}/damaged-*") if not it.endswith(".part")]


def look_again(logs, at, run, number, looked, before, ended):
    """What is there after a run that ended so, and after one more. The log is not cut before both files are kept."""
    said = run, number, ended.returncode, ended.stdout
    looked(kept(at) in ([], [before]) and (both(at) == before or kept(at) == [before]), *said)
    looked(number == signal.SIGKILL or not glob.glob(f"{at}/*.part"), os.listdir(at), *said)
    words, status = RUNS[run]
    again = logs.log(*words(at))
    looked(again.returncode == status and kept(at) == [before], again.returncode, again.stdout, *said)
    looked(not glob.glob(f"{at}/*.part"), os.listdir(at), *said)
    if run == "accept":
        looked(0 < logs.names(f"{at}/index.db") < CLAIMS, *said)
    else:
        looked(both(at) == before, *said)
    shutil.rmtree(at)


@catches("server/bin/index-log", "if os.path.isdir(folder):",
         'if os.path.isdir(folder) or os.path.isdir(f"{folder}.part"):', case="accept-9",
         also=["test_stopped_in_the_midst_of_a_copy_no_log_is_cut[accept-9]"])
@pytest.mark.slow
@pytest.mark.timeout(1800)
@pytest.mark.parametrize("number", SIGNALS)
@pytest.mark.parametrize("run", RUNS)
def test_stopped_at_each_step_no_log_is_cut_before_it_is_kept(logs, damaged, folder, looked, run, number):
    step, has_more, before = 0, True, both(damaged)
    while has_more:
        at = shutil.copytree(damaged, f"{folder}/at{step}")
        words, status = RUNS[run]
        ended = ended_before(step, number, [f"{BIN}/index-log", *words(at)], INDEX=logs.program)
        has_more = is_reached(ended)
        looked(ended.returncode == (-number if has_more else status), step, number, ended.returncode, ended.stdout)
        look_again(logs, at, run, number, looked, before, ended)
        step += 1
    print(f"index-log, {run}: {step - 1} steps by {number.name}")
    assert step > 2


@pytest.mark.parametrize("number", SIGNALS)
@pytest.mark.parametrize("run", RUNS)
def test_stopped_in_the_midst_of_a_copy_no_log_is_cut(logs, damaged, folder, looked, run, number):
    before = both(damaged)
    for copy in range(2):
        at = shutil.copytree(damaged, f"{folder}/at{copy}")
        os.mkdir(f"{folder}/half{copy}")
        ended = run_command([f"{BIN}/index-log", *RUNS[run][0](at)], **halved(f"{folder}/half{copy}", copy, number))
        looked(ended.returncode == -number and kept(at) == [], copy, number, ended.returncode, ended.stdout)
        look_again(logs, at, run, number, looked, before, ended)


# three files of a project, and one of another
CACHED = [*(("frob", f"frob-1.{it}.tar.gz") for it in range(3)), ("spam", "spam-1.tar.gz")]


@catches("server/bin/index-uncache", "    for _, path in wanted:", "    for _, path in wanted[1:]:")
@pytest.mark.parametrize("number", SIGNALS)
def test_a_project_that_was_half_taken_out_is_taken_out_by_a_second_run(folder, looked, number):
    step, has_more = 0, True
    while has_more:
        at = make_cache(f"{folder}/{step}", CACHED)
        words = [f"{BIN}/index-uncache", "--cache", at, "frob"]
        ended = ended_before(step, number, words)
        has_more, left = is_reached(ended), keys(at)
        looked(ended.returncode == (-number if has_more else 0), step, left, ended.returncode, ended.stdout)
        looked("/files/spam/spam-1.tar.gz" in left, step, left)
        again = run_command(words)
        # 1 says that nothing is left
        looked(again.returncode == (0 if len(left) > 1 else 1), step, left, again.returncode, again.stdout)
        looked(keys(at) == ["/files/spam/spam-1.tar.gz"], step, keys(at))
        step += 1
    print(f"index-uncache: {step - 1} steps by {number.name}")
    assert step > 3
