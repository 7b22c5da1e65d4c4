"""Bodies of changes wait on the disk of nginx's caches, so many at once from one address."""
import glob
import os
import select
import socket
from contextlib import ExitStack

import pytest
from support.server.front import Front
from support.server.manager import workers
from support.server.waits import wait_for

CLIENTS, MOST, MIB = 60, 50, 1 << 20
HEAD = (b"PUT /files/frob/frob-1.0.tar.gz HTTP/1.1\r\nHost: x\r\nX-Index-Token: nobody's\r\n"
        b"Content-Length: %d\r\n\r\n" % (16 * MIB - 4096))


def bodies(front):
    """The files that nginx has taken the names from, which are on a disk as long as they are open."""
    found = []
    for link in [it for pid in workers(front.process.pid) for it in glob.glob(f"/proc/{pid}/fd/*")]:
        try:
            path, size = os.readlink(link), os.stat(link).st_size
        except FileNotFoundError:
            continue
        if path.endswith(" (deleted)") and size:
            found.append(path)
    return found


def answered(clients):
    """Those that have a reply before they sent a body."""
    return select.select(clients, [], [], 0)[0]


def files_beside(folder, caches):
    """The sizes of all files of a folder but those of the caches."""
    paths = [f"{at}/{name}" for at, _, names in os.walk(folder) for name in names]
    return {it: os.path.getsize(it) for it in paths if not it.startswith(caches) and not it.endswith(".log")}


@pytest.mark.told("clients send more than 50 changes at once from an address")
def test_bodies_without_a_token_leave_the_disk_of_the_database_as_it_was(kept_index, certificate, folder):
    front = Front(f"{folder}/front", certificate, kept_index.port, is_plain=True)
    with front, ExitStack() as peers:
        before = files_beside(folder, f"{front.folder}/cache")
        clients = [peers.enter_context(socket.create_connection(("127.0.0.1", front.port), timeout=60))
                   for _ in range(CLIENTS)]
        for it in clients:
            it.sendall(HEAD)
        assert wait_for(lambda: len(answered(clients)) == CLIENTS - MOST, 9), len(answered(clients))
        refused = answered(clients)
        assert all(b" 503 " in it.recv(4096) for it in refused)
        for it in clients:
            if it not in refused:
                it.sendall(b"x" * MIB)
        assert wait_for(lambda: len(bodies(front)) == MOST), bodies(front)
        assert all(it.startswith(f"{front.folder}/cache/index-bodies/") for it in bodies(front)), bodies(front)
        assert files_beside(folder, f"{front.folder}/cache") == before
        # who only reads is not held up by them
        with socket.create_connection(("127.0.0.1", front.port), timeout=60) as reader:
            reader.sendall(b"GET /names/x HTTP/1.1\r\nHost: x\r\n\r\n")
            assert b" 200 " in reader.recv(4096)
