"""Room, copies, locks, sums and ends of the library of server/, without a server."""
import fcntl
import multiprocessing
import os
import re
import signal
import struct
import subprocess
import sys
import types

import pytest
from hypothesis import given
from hypothesis import strategies as st
from support.library import commands, database, disk, ends
from support.places import SERVER
from support.planted import catches

MIB = 1 << 20


@pytest.mark.parametrize("written, needed", [
    (0, 64 * MIB), (640 * MIB, 704 * MIB), (640 * MIB + 10, 704 * MIB + 11), (640 * MIB - 10, 704 * MIB - 10),
    (200, 200 + 64 * MIB), (2000 * MIB, 2200 * MIB)])
def test_a_tenth_or_64_mib_is_to_spare(written, needed):
    assert disk.bytes_needed(written) == needed
    assert isinstance(disk.bytes_needed(written), int)


def test_bytes_are_written_where_there_is_just_the_room(tmp_path, monkeypatch):
    free = types.SimpleNamespace(free=disk.bytes_needed(1024) // 512 * 512)
    monkeypatch.setattr(disk.shutil, "disk_usage", lambda folder: free if folder == str(tmp_path) else None)
    disk.want_room(str(tmp_path), 1024)
    free.free -= 512
    for advice, words in (("make room first", ()), ("make some", ("make some",))):
        with pytest.raises(ends.Refused) as refused:
            disk.want_room(str(tmp_path), 1024, *words)
        said = f"{tmp_path} has room for {64 * MIB + 512} bytes, and this needs {64 * MIB + 1024}: {advice}"
        assert str(refused.value) == said


def recorded(monkeypatch, name):
    """What a call of `os` was given, and it is still made."""
    seen, call = [], getattr(os, name)
    monkeypatch.setattr(os, name, lambda *words: (seen.append(words), call(*words))[1])
    return seen


def test_a_copy_has_the_bytes_and_is_synced(tmp_path, monkeypatch):
    (tmp_path / "a").write_bytes(b"bytes")
    os.utime(tmp_path / "a", (5, 5))
    synced, closed = recorded(monkeypatch, "fsync"), recorded(monkeypatch, "close")
    disk.copy(str(tmp_path / "a"), str(tmp_path / "b"))
    assert (tmp_path / "b").read_bytes() == b"bytes" and len(synced) == 1 and synced[0] in closed
    disk.copy(str(tmp_path / "a"), str(tmp_path / "c"), "--preserve=timestamps")
    assert [os.path.getmtime(tmp_path / it) == 5 for it in "bc"] == [False, True]


@catches("server/lib/package_index/disk.py", '    run("cp", "--reflink=auto", *options, source, target)',
         '    run("cp", "--reflink=auto", *options, source, target); target = source')
def test_what_was_written_is_synced_and_not_what_stands_beside_it(tmp_path, monkeypatch):
    synced, sync = [], os.fsync
    monkeypatch.setattr(os, "fsync", lambda it: (synced.append(os.fstat(it).st_ino), sync(it))[1])
    (tmp_path / "a").write_bytes(b"bytes")
    disk.copy(str(tmp_path / "a"), str(tmp_path / "b"))
    assert synced == [(tmp_path / "b").stat().st_ino]
    os.mkdir(tmp_path / "kept")
    disk.put_there(str(tmp_path / "b"), str(tmp_path / "kept" / "c"))
    assert synced[1:] == [(tmp_path / "kept").stat().st_ino]


@pytest.mark.parametrize("words, mode", [((), 0o600), ((0o644,), 0o644)])
def test_a_file_is_written_whole_with_the_mode_that_is_asked_for(tmp_path, words, mode):
    before = os.umask(0o077)
    for text in ("longer text\n", "text\n"):
        disk.put_whole(str(tmp_path / "x.prom"), text, *words)
    os.umask(before)
    assert os.listdir(tmp_path) == ["x.prom"] and (tmp_path / "x.prom").read_text() == "text\n"
    assert (tmp_path / "x.prom").stat().st_mode & 0o777 == mode


def test_a_folder_is_synced_too_and_what_is_not_there_is_an_error(tmp_path, monkeypatch):
    synced = recorded(monkeypatch, "fsync")
    disk.sync(str(tmp_path))
    assert len(synced) == 1
    with pytest.raises(FileNotFoundError):
        disk.sync(str(tmp_path / "none"))


def test_a_sync_that_fails_leaves_no_open_file(tmp_path, monkeypatch):
    def fails(_):
        raise OSError("full")

    monkeypatch.setattr(os, "fsync", fails)
    closed = recorded(monkeypatch, "close")
    with pytest.raises(OSError, match="full"):
        disk.sync(str(tmp_path))
    assert len(closed) == 1


def test_a_command_gives_what_it_prints_and_reads_nothing():
    assert commands.run("sh", "-c", "cat; echo out; echo err >&2") == "out\nerr\n"


@pytest.mark.parametrize("words, said", [
    (("sh", "-c", "echo why; exit 3"), "sh -c echo why; exit 3: status 3: why"),
    (("/nowhere/x", "y"), "/nowhere/x: No such file or directory")])
def test_a_command_that_fails_says_why(words, said):
    with pytest.raises(ends.Refused) as refused:
        commands.run(*words)
    assert str(refused.value) == said


def test_the_files_of_a_database_are_counted_as_often_as_they_are_named(tmp_path):
    db = str(tmp_path / "index.db")
    (tmp_path / "index.db").write_bytes(bytes(100))
    assert database.size_of(db, ("", "-wal", "-wal")) == 100
    (tmp_path / "index.db-wal").write_bytes(bytes(7))
    assert database.size_of(db, ("", "-wal", "-wal")) == 114
    assert database.size_of(db, ("-wal",)) == 7


def locks(path, is_exclusive, is_taken, may_end):
    """Holds a lock where SQLite has its own, as a program that has the database open."""
    with open(path, "r+b") as file:
        how = fcntl.LOCK_EX if is_exclusive else fcntl.LOCK_SH
        fcntl.lockf(file, how, 1, 0x40000000 + (0 if is_exclusive else 511))
        is_taken.set()
        may_end.wait(60)


@pytest.mark.parametrize("is_exclusive", [True, False])
def test_a_database_that_another_program_reads_or_writes_is_not_locked(tmp_path, is_exclusive):
    path = tmp_path / "index.db"
    path.touch()
    is_taken, may_end = multiprocessing.Event(), multiprocessing.Event()
    other = multiprocessing.Process(target=locks, args=(path, is_exclusive, is_taken, may_end))
    other.start()
    assert is_taken.wait(60)
    with open(path, "r+b") as file:
        with pytest.raises(ends.Refused) as refused:
            database.lock(file, "end it")
        assert str(refused.value) == f"{path}: another program still has it open; end it"
        with pytest.raises(ends.Refused, match="has it open; stop that first$"):
            database.lock(file)
        may_end.set()
        other.join()
        database.lock(file)


def test_a_lock_is_where_sqlite_looks(tmp_path):
    path = tmp_path / "index.db"
    path.touch()
    with open(path, "r+b") as file:
        database.lock(file)
        look = ("import fcntl, struct, sys\n"
                "with open(sys.argv[1], 'r+b') as file:\n"
                "    asked = struct.pack('hhqqi4x', fcntl.F_RDLCK, 0, 0, 0, 0)\n"
                "    print(*struct.unpack('hhqqi4x', fcntl.fcntl(file, fcntl.F_GETLK, asked))[:4])\n")
        found = subprocess.run([sys.executable, "-c", look, path], stdout=subprocess.PIPE, text=True, check=True)
    assert found.stdout == f"{fcntl.F_WRLCK} 0 {1 << 30} 512\n"


def plain_sum(big, start, data):
    """SQLite's sum, by the words of its page on the format."""
    first, second = start
    for at in range(0, len(data), 8):
        first = (first + int.from_bytes(data[at:at + 4], "big" if big else "little") + second) % 2 ** 32
        second = (second + int.from_bytes(data[at + 4:at + 8], "big" if big else "little") + first) % 2 ** 32
    return first, second


@given(st.booleans(), st.tuples(*[st.integers(0, 2 ** 32 - 1)] * 2), st.lists(st.binary(min_size=8, max_size=8)))
def test_a_sum_is_that_of_sqlites_page(big, start, words):
    assert database.sum_of(big, start, b"".join(words)) == plain_sum(big, start, b"".join(words))


def test_a_sum_of_known_bytes():
    data = struct.pack(">4I", 1, 2, 3, 4)
    assert database.sum_of(True, (0, 0), data) == (1 + 3 + 3, 3 + 7 + 4)


@pytest.mark.parametrize("made, status, said", [
    ("return 0", 0, ""), ("return 5", 5, ""), ("raise Refused('no')", 1, "it: no\n"),
    ("raise FileNotFoundError(2, 'No such file', 'x')", 1, "it: [Errno 2] No such file: 'x'\n"),
    ("raise SystemExit(2)", 2, "")])
def test_a_program_ends_with_its_status_and_its_reason(made, status, said):
    ended = program(f"def main():\n    {made}\n")
    assert (ended.wait(), ended.stderr.read()) == (status, said)
    ended.stderr.close(), ended.stdout.close()


def program(text, before=""):
    """A program that ends by `status_of`, under the name `it`."""
    script = f"import sys; sys.path.insert(0, {SERVER + '/lib'!r})\nfrom package_index.ends import *\n{text}\n"
    words = [sys.executable, "-B", "-c", f"{script}{before}\nsys.exit(status_of('it', main))"]
    # with this variable all that is printed is written at once
    env = {name: value for name, value in os.environ.items() if name != "PYTHONUNBUFFERED"}
    return subprocess.Popen(words, stdout=subprocess.PIPE, stderr=subprocess.PIPE, text=True, env=env,
                            restore_signals=True, start_new_session=True)


def test_a_program_goes_on_if_nobody_reads_what_it_tells():
    main = ("import os\ndef main():\n    read, write = os.pipe()\n    os.close(read)\n    os.dup2(write, 1)\n"
            "    tell('moved')\n    tell('and done')\n    return 7\n")
    running = program(main)
    out, err = running.communicate(timeout=60)
    assert (running.returncode, out, err) == (7, "", "")


@pytest.mark.parametrize("number", [signal.SIGHUP, signal.SIGINT, signal.SIGTERM])
def test_a_program_that_is_interrupted_tidies_up_and_dies_of_the_signal(number):
    main = ("import time\ndef main():\n    try:\n        print('here', flush=True)\n        time.sleep(60)\n"
            "    finally:\n        print('tidied', flush=True)\n")
    # a test that runs in the background ignores SIGINT, and its children do too
    running = program(main, "import signal\nfor it in (1, 2, 15): signal.signal(it, signal.SIG_DFL)")
    assert running.stdout.readline() == "here\n"
    running.send_signal(number)
    out, err = running.communicate(timeout=60)
    assert (running.returncode, out, err) == (-number, "tidied\n", "it: stopped\n")


@catches("server/lib/package_index/ends.py", "signal.signal(each, signal.SIG_IGN)", "pass")
@pytest.mark.parametrize("number", [signal.SIGHUP, signal.SIGINT, signal.SIGTERM])
def test_a_second_signal_does_not_interrupt_what_tidies_up(number):
    main = ("import os, time\ndef main():\n    try:\n        os.kill(os.getpid(), 15)\n    finally:\n"
            f"        os.kill(os.getpid(), {int(number)})\n        print('tidied', flush=True)\n")
    running = program(main, "import signal\nfor it in (1, 2, 15): signal.signal(it, signal.SIG_DFL)")
    out, err = running.communicate(timeout=60)
    assert (running.returncode, out, err) == (-signal.SIGTERM, "tidied\n", "it: stopped\n")


HELD = """import os, subprocess
def main():
    try:
        with held():
            os.kill(os.getpid(), 15)
            subprocess.run(["sh", "-c", "kill -s TERM $$; echo goes on"])
            print("held", flush=True)
            with let_in():
                print("comes too late", flush=True)
    finally:
        print("tidied", flush=True)
"""


@catches("server/lib/package_index/ends.py", "before = signal.pthread_sigmask(signal.SIG_BLOCK, SIGNALS)",
         "before = signal.pthread_sigmask(signal.SIG_BLOCK, [])")
@pytest.mark.parametrize("text, out", [
    (HELD, "goes on\nheld\ntidied\n"),
    (HELD.replace("with let_in()", "if True"), "goes on\nheld\ncomes too late\ntidied\n")], ids=["let_in", "held"])
def test_a_signal_is_held_until_it_may_come_and_commands_do_not_see_it(text, out):
    running = program(text, "import signal\nfor it in (1, 2, 15): signal.signal(it, signal.SIG_DFL)")
    said = running.communicate(timeout=60)
    assert (running.returncode, *said) == (-signal.SIGTERM, out, "it: stopped\n")


def test_a_signal_that_is_ignored_stays_so():
    main = ("import os, time\ndef main():\n    os.kill(os.getpid(), 1)\n    return 7\n")
    running = program(main, "import signal\nsignal.signal(signal.SIGHUP, signal.SIG_IGN)")
    out, err = running.communicate(timeout=60)
    assert (running.returncode, err) == (7, "")


def test_each_program_of_server_ends_by_one_rule():
    for name in sorted(os.listdir(f"{SERVER}/bin")):
        with open(f"{SERVER}/bin/{name}") as kept:
            text = kept.read()
        if name != "index-alarm":
            assert re.search(rf'^    sys\.exit\(status_of\((?:NAME|"{name}"), main\)\)\n\Z', text, re.M), name
