"""What a limit of the system, or SQLite with another setting, does to a database, as FORMATS says."""
import resource
import signal
import subprocess

import pytest
from support.needed import want_command
from support.running import run
from support.serving import ACCEPTED, ALREADY
from support.subcommands import End
from support.volumes import copy_volume
from support.workload import STORE, line_of, upload

# in bytes: enough for some uploads, and not for all
LIMIT = 800 << 10
UPLOADS = [line_of(token, **asked) for token, asked in (
    upload("office", f"frob-{number}.tar.gz", bytes([number]) * 30_000) for number in range(60))]
CLAIM = line_of("office", do="claim", name="frob")


def limited():
    resource.setrlimit(resource.RLIMIT_FSIZE, (LIMIT, LIMIT))


def ignoring():
    signal.signal(signal.SIGXFSZ, signal.SIG_IGN)
    limited()


def applied(program, path, begin):
    """The end of `apply` on these lines, of which the system takes a part. (Python ignores the signal, and Popen gives
    it back.)"""
    ended = run(program, "apply", "--db", path, given=b"".join([CLAIM, *UPLOADS]), preexec_fn=begin)
    return ended.returncode, ended.stdout.splitlines(), ended.stderr


def test_a_limit_of_file_size_ends_the_program_without_a_word_and_loses_nothing(program, index_file):
    status, answers, said = applied(program, index_file, limited)
    assert (status, said) == (-signal.SIGXFSZ, b"") and answers and {*answers} == {ACCEPTED}
    assert 1 < len(answers) < len(UPLOADS)
    again = run(program, "apply", "--db", index_file, given=b"".join([CLAIM, *UPLOADS])).stdout.splitlines()
    assert again[:len(answers)] == [ALREADY] * len(answers) and len(again) == 1 + len(UPLOADS)


def test_who_ignores_that_signal_is_told_as_the_pages_say(program, index_file):
    status, answers, said = applied(program, index_file, ignoring)
    assert status in (0, 1) and STORE in answers, (status, said)
    count = answers.index(STORE)
    assert {*answers[:count]} == {ACCEPTED}
    again = run(program, "apply", "--db", index_file, given=b"".join([CLAIM, *UPLOADS])).stdout.splitlines()
    assert again[:count] == [ALREADY] * count


@pytest.mark.parametrize("number", [12, 100])
def test_an_index_whose_pages_have_reserved_bytes_opens_again(end, index_file, folder, number):
    """As SQLite of some systems makes them: FORMATS says by which bytes they are seen, and what undoes them."""
    want_command("sqlite3", "sqlite3")
    new = f"{folder}/new.db"
    words = ["sqlite3", index_file, f".filectrl reserve_bytes {number}", "VACUUM"]
    subprocess.run(words, check=True, stdout=subprocess.DEVNULL)
    seen = subprocess.run(["od", "-An", "-tu1", "-j20", "-N1", index_file], stdout=subprocess.PIPE, check=True).stdout
    assert int(seen) == number
    ended = end("check", "--db", index_file)
    assert (ended.status, ended.error) == (1, f"index: Store\nindex: {index_file}: damaged\n".encode()), ended
    subprocess.run(["sh", "-ec", f"sqlite3 {index_file} .dump | sqlite3 {new}"], check=True)
    copy_volume(index_file, new)
    assert end("check", "--db", new) == End(0, b"0\n")
