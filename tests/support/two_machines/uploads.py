"""Uploads to whichever machine serves, and what a database has of those that were acknowledged."""
from __future__ import annotations

import hashlib
import http.client
import os
import random
import sqlite3
import threading
import time
from contextlib import closing, suppress

from support.places import BIN
from support.running import run, run_command
from support.serving import Asking, exchange
from support.two_machines.guests import Guest
from support.volumes import VOLUME, bodies_of


class Served(Asking):
    """The index on the guest that serves."""

    def __init__(self, guest: Guest) -> None:
        self.guest = guest

    def ask(self, method: str, path: str, body=None, **headers) -> tuple:
        return exchange(http.client.HTTPConnection(self.guest.address, self.guest.port, timeout=60), method, path, body,
                        headers)

    def answers(self, patience: float = 1800) -> bool:
        """Waits until it answers."""
        until = time.monotonic() + patience
        while time.monotonic() < until:
            with suppress(OSError, http.client.HTTPException):
                if self.ask("GET", "/names/x")[0] == 200:
                    return True
            time.sleep(0.05)
        return False


class Uploader(threading.Thread):
    """Uploads file after file of a project as long as a block runs. What was not acknowledged is sent again, with the
    same bytes. It waits for `pause` seconds after each. `files` has the digests of what was, and `longest` the seconds
    that one took."""

    def __init__(self, index: Served, project: str, chance: random.Random, pause: float = 0) -> None:
        super().__init__(daemon=True)
        self.index, self.project, self.chance, self.pause = index, project, chance, pause
        self.files: dict[str, bytes] = {}
        self.longest, self.is_over = 0.0, threading.Event()

    def __enter__(self) -> Uploader:
        self.start()
        return self

    def __exit__(self, *_: object) -> None:
        self.is_over.set()
        self.join()

    def run(self) -> None:
        number, body = 0, b""
        while not self.is_over.is_set():
            body = body or self.chance.randbytes(self.chance.randrange(1, 12_000))
            file, begun = f"{self.project}-1.{number}.tar.gz", time.monotonic()
            status = 0
            with suppress(OSError, http.client.HTTPException):
                status = self.index.upload(self.project, file, body)[0]
            if status not in (200, 201):
                self.is_over.wait(0.1)
                continue
            self.longest = max(self.longest, time.monotonic() - begun)
            self.files[file] = hashlib.sha256(body).digest()
            number, body = number + 1, b""
            self.is_over.wait(self.pause)

    def grown(self, seconds: float) -> int:
        """How many uploads are acknowledged within so many seconds."""
        before = len(self.files)
        time.sleep(seconds)
        return len(self.files) - before

    def goes_on(self, patience: float = 1800) -> bool:
        """Waits until one more upload is acknowledged."""
        before, until = len(self.files), time.monotonic() + patience
        while len(self.files) == before and time.monotonic() < until:
            time.sleep(0.05)
        return len(self.files) > before


def fetched(guest: Guest, folder: str) -> str:
    """A copy of the database, its log and its volume as they lie in the guest."""
    path = f"{folder}/fetched.db"
    for end in ("", "-wal", VOLUME):
        with suppress(FileNotFoundError):
            os.remove(path + end)
        guest.fetch(f"/var/lib/index/index.db{end}", path + end)
    return path


def wrong_in(path: str, files: dict[str, bytes], program: str) -> list[object]:
    """What is wrong with a database that has to have these files."""
    found: list[object] = []
    checked = run(program, "check", "--db", path, patience=600)
    if (checked.returncode, checked.stdout) != (0, b"0\n"):
        found.append(checked)
    verified = run_command([f"{BIN}/index-verify", path], 600, INDEX=program)
    if verified.returncode:
        found.append(verified)
    with closing(sqlite3.connect(f"file:{path}?immutable=1", uri=True)) as database:
        rows = dict(bodies_of(path, database.execute("SELECT file, body FROM files JOIN blobs USING (file) "
                                                     "WHERE live = 1")))
    lost = [file for file, digest in files.items() if file not in rows or hashlib.sha256(rows[file]).digest() != digest]
    return found + [("lost", file) for file in lost]


def log_is_whole(path: str) -> object:
    """What index-log says against the log of a database, or nothing."""
    ended = run_command([f"{BIN}/index-log", path], 600)
    return ended if ended.returncode else None
