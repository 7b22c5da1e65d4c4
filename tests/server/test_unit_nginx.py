"""How tests run nginx, and what they read of its logs, which it writes meanwhile."""
from __future__ import annotations

import os
import shutil
import signal
import subprocess

import pytest
from support import ports
from support.needed import want_command
from support.places import TOP
from support.planted import catches
from support.ports import is_used
from support.server.front import WORKERS, Nginx, whole_lines
from support.server.manager import workers
from support.server.waits import wait_for


# holds the only port, and says so, until nobody waits for it
HOLDS = """import sys
sys.path.insert(0, sys.argv[1])
import ports
ports.LOCKS, ports.PORTS = sys.argv[2], range(20_000, 20_001)
print(ports.free_port(), flush=True)
sys.stdin.read()
"""


@catches("tests/support/ports.py", "fcntl.LOCK_EX | fcntl.LOCK_NB", "fcntl.LOCK_SH | fcntl.LOCK_NB")
def test_a_port_that_one_test_holds_no_other_gets_also_of_another_user(folder, monkeypatch):
    """Nobody listens there yet, as before a server has read its files. (Only root runs a test of another user.)"""
    os.chmod(folder, 0o1777)
    monkeypatch.setattr(ports, "LOCKS", f"{folder}/locks")
    monkeypatch.setattr(ports, "PORTS", range(20_000, 20_001))
    monkeypatch.setattr(ports, "HELD", set())
    monkeypatch.setattr(ports, "FILE", [])
    # where the other user may read it
    shutil.copy(f"{TOP}/tests/support/ports.py", folder)
    words = ["/usr/bin/python3", "-B", "-c", HOLDS, folder, ports.LOCKS]
    other = {} if os.getuid() else {"user": 65534, "group": 65534, "extra_groups": []}
    for held_by in ({}, other):
        with subprocess.Popen(words, stdin=subprocess.PIPE, stdout=subprocess.PIPE, text=True, **held_by) as holds:
            assert holds.stdout.readline() == "20000\n"
            with pytest.raises(RuntimeError, match="no port from 20000 to 20001 is free"):
                ports.free_port()
            holds.stdin.close()
    assert ports.free_port() == 20_000
    os.close(ports.FILE[0])


def test_a_line_of_which_nginx_has_written_a_part_is_none_yet(tmp_path):
    log = tmp_path / "changes.log"
    log.write_text('{"status":200}\n{"sta')
    assert whole_lines(str(log)) == ['{"status":200}\n']


def test_no_worker_is_left_of_an_nginx_that_could_not_end(folder):
    """As if a busy machine had not let it: here it is stopped."""
    want_command("nginx", "nginx-light")
    nginx = Nginx(f"{folder}/nginx")
    nginx.put("conf.d/a.conf", f"server {{ listen 127.0.0.1:{nginx.port}; }}\n")
    nginx.ends_within = 0.1
    with nginx:
        assert wait_for(lambda: len(workers(nginx.process.pid)) == WORKERS)
        os.kill(nginx.process.pid, signal.SIGSTOP)
    assert wait_for(lambda: not is_used(nginx.port))
