"""What goes wrong below the programs, raised for real, is reported as OPERATING's table says."""
import contextlib
import os
import re
import signal
import socket
import subprocess
import sys
import time

import pytest
from support.library import looks
from support.needed import want_command
from support.places import BIN, TOP
from support.planted import catches
from support.running import run_command
from support.server.expected import assert_ends
from support.server.front import WORKERS, Front
from support.server.front import kept as conf_text
from support.server.stand_ins import stand_ins
from support.server.waits import wait_for
from support.server.watched import HEALTH
from support.serving import Index, Running, accepted

SINCE = 'case "$*" in *TimestampMonotonic*) echo "$STARTED" ;; esac'


def alarms(front, db, **setting):
    """A run of index-alarms beside this nginx, for an index that runs since an hour ago."""
    folder = front.folder
    if not os.path.exists(f"{folder}/bin"):
        stand_ins(f"{folder}/bin", systemctl=SINCE)
        os.mkdir(f"{folder}/backups")
    words = ["--state", f"{folder}/state", "--folder", folder, "--backups", f"{folder}/backups", "--place",
             f"{folder}/place", "--changes", f"{folder}/index-changes.log", "--db", db, "--nginx",
             f"{folder}/conf.d/packages.conf", "--failed", f"{folder}/failed"]
    started = str(max(1, int((time.monotonic() - 3600) * 1e6)))
    return run_command([sys.executable, f"{BIN}/index-alarms", *words],
                       PATH=f"{folder}/bin:{os.environ['PATH']}", STARTED=started, **setting)


@pytest.fixture
def disk(folder):
    """An ext4 of its own, and what makes it read-only as the kernel does after an error."""
    want_command("mkfs.ext4", "e2fsprogs")
    if os.geteuid() != 0:
        pytest.skip("only root may mount")
    image, at = f"{folder}/image", f"{folder}/disk"
    os.mkdir(at)
    with open(image, "wb") as made:
        made.truncate(48 << 20)
    assert_ends(run_command(["mkfs.ext4", "-q", "-F", image]), 0)
    if run_command(["mount", "-o", "loop", image, at]).returncode:
        pytest.skip("this machine lets nobody mount a disk")
    yield at
    run_command(["umount", "--lazy", at])


@catches("server/lib/package_index/disk.py", '{"ro", "emergency_ro", "shutdown"}.isdisjoint',
         '{"read_only"}.isdisjoint',
         also=["server/test_unit_health.py::test_a_file_system_is_that_of_the_deepest_mount_and_its_own_options_count"])
@pytest.mark.told("a disk takes no writes", "a change failed (500)")
def test_a_disk_that_goes_read_only_is_told_and_so_are_changes_that_fail(program, disk, certificate, folder):
    path = f"{disk}/index.db"
    with Index(program, path=path) as index, Front(f"{folder}/front", certificate, index.port) as front:
        accepted(front.claim("before"))
        look = [*HEALTH, "--room", disk, "--least", "1", f"http://127.0.0.1:{index.port}"]
        assert_ends(run_command(look), 0)
        assert "failed" not in alarms(front, path).stdout
        assert_ends(run_command(["mount", "-o", "remount,abort", disk]), 0)
        assert front.claim("after")[0] == 500
        assert_ends(run_command(look), 9, f"{disk} takes no writes: its file system is read-only")
        assert wait_for(lambda: len(front.changes()) == 2)
        assert_ends(alarms(front, path), 9, "1 change failed (500) in the last hour: is the disk of the database full")


@catches("server/lib/package_index/looks.py", "if started and late > BEHIND:", "if started and late > BEHIND * BEHIND:",
         also=["server/test_alarms_by_rate.py::test_a_log_that_nginx_does_not_write_is_told"])
@pytest.mark.told("nginx does not write the log of changes")
def test_a_log_that_nginx_can_not_open_is_told(front, kept_index):
    log = f"{front.folder}/index-changes.log"
    accepted(front.claim("before"))
    assert wait_for(lambda: len(front.changes()) == 1)
    assert "nginx does not write it" not in alarms(front, kept_index.path).stdout
    os.rename(log, f"{front.folder}/away.log")
    os.mkdir(log)
    os.kill(front.process.pid, signal.SIGUSR1)
    # it, its workers, and who looks after its caches
    assert wait_for(lambda: front.log().count(f'open() "{log}" failed') > WORKERS + 1), front.log()
    accepted(front.claim("after"))
    assert_ends(alarms(front, kept_index.path), 9, "minutes after the last line of", "nginx does not write it")
    # (the fixture wants an nginx that complains of nothing)
    os.truncate(f"{front.folder}/error.log", 0)


@catches("server/lib/package_index/looks.py", "if late > BEHIND:", "if late > BEHIND * BEHIND:")
@pytest.mark.told("`index-uncache-follow` hangs or is slow")
def test_a_follower_that_hangs_is_told(front, monkeypatch):
    """Seen three minutes later."""
    log, place = f"{front.folder}/index-changes.log", f"{front.folder}/place"
    words = ["--place", place, "--log", log, "--cache", f"{front.folder}/cache/index-files"]
    accepted(front.claim("frob"))
    accepted(front.upload("frob", "frob-1.0.tar.gz", b"new"))
    with Running([sys.executable, f"{BIN}/index-uncache-follow", *words], stdout=subprocess.DEVNULL,
                 stderr=subprocess.DEVNULL) as runs:
        assert wait_for(lambda: os.path.exists(place))
        assert wait_for(lambda: len(front.changes()) == 2)
        read = os.path.getsize(log)
        assert wait_for(lambda: int(open_text(place).split()[1]) == read)
        assert [*looks.behind(place, log, time.time() + 180)] == []
        runs.process.send_signal(signal.SIGSTOP)
        try:
            accepted(front.request(do="ban_file", file="frob-1.0.tar.gz"))
            assert wait_for(lambda: os.path.getsize(log) > read)
            assert [*looks.behind(place, log, time.time())] == []
            found, = looks.behind(place, log, time.time() + 180)
        finally:
            runs.process.send_signal(signal.SIGCONT)
    assert found.startswith("index-uncache-follow is 3 minutes behind "), found


def open_text(path):
    with open(path, encoding="ascii") as kept:
        return kept.read()


@catches("tests/support/server/front.py", "error_log {folder}/error.log;", "error_log {folder}/error.log emerg;")
@pytest.mark.told("nginx has too few connections")
def test_too_few_connections_of_nginx_are_told(kept_index, certificate, folder):
    front = Front(f"{folder}/few", certificate, kept_index.port, is_plain=True)
    text = open_text(f"{front.folder}/nginx.conf")
    with open(f"{front.folder}/nginx.conf", "w", encoding="ascii") as made:
        made.write(text.replace("worker_connections 768", "worker_connections 12"))
    with front, contextlib.ExitStack() as peers:
        for _ in range(40):
            with contextlib.suppress(OSError):
                peer = peers.enter_context(socket.create_connection(("127.0.0.1", front.port), timeout=5))
                # one that has sent nothing is closed for another
                peer.sendall(b"GET /names/x HTTP/1.1\r\nHost")
        assert wait_for(lambda: "worker_connections are not enough" in front.log(), 9), front.log()


def test_nginx_may_open_as_many_files_as_its_connections_want(kept_index, certificate, folder):
    """By the line of OPERATING, at the top of its file: two for each of the connections that are told there."""
    with open(f"{TOP}/docs/operators/OPERATING.md", encoding="utf-8") as kept:
        page = kept.read()
    line, = re.findall(r"`(worker_rlimit_nofile \d+;)`", page)
    wanted = 5 * int(re.findall(r"limit_conn index_clients (\d+);", conf_text("packages.conf"))[0])
    front = Front(f"{folder}/many", certificate, kept_index.port)
    text = open_text(f"{front.folder}/nginx.conf")
    with open(f"{front.folder}/nginx.conf", "w", encoding="ascii") as made:
        made.write(f"{line}\n{text}".replace("worker_connections 768", f"worker_connections {wanted}"))
    with front:
        accepted(front.claim("frob"))
        children = open_text(f"/proc/{front.process.pid}/task/{front.process.pid}/children").split()
        limits = [int(re.findall(r"^Max open files +(\d+)", open_text(f"/proc/{it}/limits"), re.M)[0])
                  for it in children]
    assert len(limits) >= WORKERS and min(limits) >= 2 * wanted, limits
