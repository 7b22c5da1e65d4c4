"""index-restore for one index behind nginx with PyPI beside it, and what was uploaded before its copy and after."""
from __future__ import annotations

import os
import random
import shutil
import sqlite3
import subprocess
from collections.abc import Iterator
from contextlib import ExitStack, closing, contextmanager

from support.places import BIN
from support.running import run_command
from support.server.front import Front
from support.server.kept import Kept
from support.server.manager import Manager
from support.server.stranger import Stranger
from support.serving import accepted, make_index

# the script that follows, killed before a call of those by which files are moved: the one of this number, from 0 on
KILLED = """
import os, runpy, signal, sys
left = [int(sys.argv.pop(1))]
def counted(call):
    def counting(*words, **more):
        if not left[0]:
            os.kill(os.getpid(), signal.SIGKILL)
        left[0] -= 1
        return call(*words, **more)
    return counting
for name in ("mkdir", "link", "remove", "rename"):
    setattr(os, name, counted(getattr(os, name)))
sys.argv.pop(0)
runpy.run_path(sys.argv[0], run_name="__main__")
"""
# two folders, two links, two names that go, and the copy's own
KILLS = 7


class Restores:
    """`folder` has the index, `backups` the copy, `work` all else. `before` and `after` are the files that were
    uploaded before the copy and after it."""

    def __init__(self, work: str, program: str, index: Kept, front: Front, manager: Manager):
        self.work, self.program, self.index, self.front, self.manager = work, program, index, front, manager
        self.folder, self.backups, self.log = os.path.dirname(index.path), f"{work}/backups", f"{work}/changes.log"
        self.before: dict[str, bytes] = {}
        self.after: dict[str, bytes] = {}
        self.copy = ""
        os.mkdir(self.backups)

    def upload(self, file: str, body: bytes, files: dict) -> None:
        accepted(self.index.upload("frob", file, body))
        files[file] = body

    def fill(self, chance: random.Random) -> None:
        """Uploads, a backup, and more uploads, which stand in the log; a name that is claimed; and a file that nginx
        keeps."""
        accepted(self.index.claim("frob"))
        for number in range(3):
            self.upload(f"frob-1.{number}.tar.gz", chance.randbytes(9_000), self.before)
        ended = run_command([f"{BIN}/index-backup", self.index.path, self.backups], INDEX=self.program)
        if ended.returncode:
            raise RuntimeError(f"no backup: {ended.stdout}")
        self.copy = f"{self.backups}/{os.listdir(self.backups)[0]}"
        for number in range(5):
            self.upload(f"frob-2.{number}.tar.gz", chance.randbytes(9_000), self.after)
        accepted(self.index.claim("later"))
        self.front.ask("GET", "/files/frob/frob-2.0.tar.gz")

    def run(self, copy: str, *more: str, shell: str = ":", front: tuple = (), unit: str | None = "index.service",
            db: str | None = None, pypi: str | None = None, port: int | None = None) -> subprocess.CompletedProcess:
        """The end of a restore, behind this line of a shell or this command, and of other places if they are given;
        without a unit the usual one is stopped."""
        nginx = self.front.folder
        words = [*front, f"{BIN}/index-restore", copy, *more, "--db", db or self.index.path,
                 *(["--unit", unit] if unit else []), "--changes", self.log,
                 "--url", f"http://127.0.0.1:{port or self.index.port}",
                 "--cache", f"{nginx}/cache/index-pages", "--cache", f"{nginx}/cache/index-files",
                 "--with-pypi", pypi or f"{nginx}/index/server.d/with-pypi.conf"]
        if shell != ":":
            words = ["sh", "-c", f'{shell}; exec "$@"', "sh", *words]
        return run_command(words, PATH=f"{self.manager.folder}:{os.environ['PATH']}", INDEX=self.program)

    def missing(self, files: dict | None = None) -> list:
        """Those of all files, or of these, that the index does not give back."""
        wanted = {**self.before, **self.after} if files is None else files
        return [it for it, body in wanted.items() if self.index.ask("GET", f"/files/frob/{it}")[2] != body]

    def left(self) -> list:
        """What stands beside the database."""
        return [it for it in os.listdir(self.folder) if not it.startswith("index.db")]


@contextmanager
def restores(program: str, folder: str, certificate: str) -> Iterator[Restores]:
    """Of an index that serves behind nginx, with PyPI beside it and what stands for systemd."""
    os.mkdir(f"{folder}/restored")
    with ExitStack() as running:
        index = running.enter_context(Kept(program, make_index(program, f"{folder}/restored/index.db")))
        pypi = running.enter_context(Stranger())
        front = running.enter_context(Front(f"{folder}/front", certificate, index.port, pypi=pypi.port))
        manager = running.enter_context(Manager(f"{folder}/manager", index, front))
        yield Restores(folder, program, index, front, manager)


def names_of(db: str, folder: str) -> list | None:
    """The names that a database has with its log, by SQLite on a copy in this folder; None if there is no database."""
    if not os.path.exists(db):
        return None
    copy = f"{folder}/looked-at.db"
    for end in ("", "-wal", "-shm"):
        if os.path.exists(copy + end):
            os.remove(copy + end)
        if os.path.exists(db + end):
            shutil.copy(db + end, copy + end)
    with closing(sqlite3.connect(copy)) as database:
        return [name for name, in database.execute("SELECT name FROM names ORDER BY name")]
