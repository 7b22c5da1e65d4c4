"""index-reseal and index-restore on a recording disk, and what a power cut may leave of each.

A database that a tool makes is lost if its name reaches the disk before its bytes do. The kernel writes names
whenever another program syncs a file: one does so here."""
from __future__ import annotations

import os
import random
import tempfile
import threading
from collections.abc import Callable, Iterator
from contextlib import contextmanager

from support.judge import copy_index, rows_of
from support.places import BIN
from support.power_cuts import Job, Mark, large_requests
from support.running import run, run_command
from support.server.kept import Kept
from support.server.manager import Manager
from support.serving import Index, make_index, reply_to
from support.workload import message_of

# in MiB: the tools want 64 free
ROOM = 112
# how often another program syncs its file before systemd starts an index, and behind the end of a command
OFTEN = 30
# the moment of all requests, so that rows are the same in each run
AT = 7


def served(program: str, path: str, messages: list[bytes]) -> str:
    """An index that has answered these, and was killed: its log has some of them."""
    with Index(program, path=path, at=AT) as index:
        for message in messages:
            reply_to(index.port, message)
        index.process.kill()
    return path


def sync_beside(path: str, count: int = 1) -> None:
    """Writes and syncs another file of the folder of an index, so often."""
    with open(f"{os.path.dirname(path)}/beside", "ab", buffering=0) as file:
        for _ in range(count):
            file.write(b"beside")
            os.fsync(file.fileno())


@contextmanager
def syncs_beside(path: str, chance: random.Random) -> Iterator[None]:
    """Another program syncs a file at random moments, and ever less often: on a busy machine they are not many more."""
    is_over = threading.Event()

    def write() -> None:
        pause = 0.02
        while not is_over.wait(chance.uniform(0, 2 * pause)):
            sync_beside(path)
            pause *= 1.1

    thread = threading.Thread(target=write, daemon=True)
    thread.start()
    try:
        yield
    finally:
        is_over.set()
        thread.join()


def ended_well(words: list[str], **setting: str) -> None:
    ended = run_command(words, 300, **setting)
    assert ended.returncode == 0, ended


def again(make: Callable[[str], None]) -> Callable[[str], str]:
    """After a power cut a person runs the command again if the database that it makes is not there."""
    def run_again(path: str) -> str:
        try:
            if not os.path.exists(path):
                make(path)
        except AssertionError as end:
            return f"the next run: {end}"
        return ""
    return run_again


def reseal_job(program: str, folder: str, **setting: str) -> Job:
    """An index with a log is written into a new one."""
    old = served(program, make_index(program, f"{folder}/old.db"), [message_of(it) for it in large_requests(12)])

    def make(path: str, **setting: str) -> None:
        ended_well([f"{BIN}/index-reseal", f"{os.path.dirname(path)}/old.db", path], INDEX=program, **setting)

    def drive(path: str, mark: Mark) -> None:
        make(path, **setting)
        mark()
        sync_beside(path, OFTEN)

    rows = rows_of(copy_index(old, f"{folder}/seen.db"))
    return Job("reseal", lambda path: copy_index(old, f"{os.path.dirname(path)}/old.db"), drive, [None, rows],
               again(make), ROOM, syncs_beside)


def restore_job(program: str, folder: str, **setting: str) -> Job:
    """A copy is put in the place of an index that serves. Then that takes uploads."""
    messages = [message_of(it) for it in large_requests(24)]
    first, old = make_index(program, f"{folder}/first.db"), f"{folder}/old.db"
    served(program, first, messages[:8])
    copy = copy_index(first, f"{folder}/copy.db")
    assert run(program, "check", "--db", copy).stdout == b"0\n"
    served(program, copy_index(first, old), messages[8:16])

    def make(path: str, mark: Mark = lambda: None, later: tuple[bytes, ...] = (), **setting: str) -> None:
        with kept_by_systemd(program, path) as (index, commands):
            ended_well([f"{BIN}/index-restore", f"{os.path.dirname(path)}/copy.db", "--db", path, "--url",
                        f"http://127.0.0.1:{index.port}", "--unit", "index.service", "--cache", commands,
                        "--changes", f"{commands}/none", "--with-pypi", f"{commands}/none"], INDEX=program,
                       PATH=f"{commands}:{os.environ['PATH']}", **setting)
            mark()
            for message in later:
                reply_to(index.port, message)
                mark()

    def prepare(path: str) -> None:
        copy_index(old, path)
        copy_index(copy, f"{os.path.dirname(path)}/copy.db")

    def drive(path: str, mark: Mark) -> None:
        make(path, mark, tuple(messages[16:]), **setting)

    os.mkdir(f"{folder}/plain")
    plain, states = f"{folder}/plain/index.db", [rows_of(copy_index(old, f"{folder}/seen.db"))]
    prepare(plain)
    drive(plain, lambda: states.append(rows_of(copy_index(plain, f"{folder}/seen.db"))))
    return Job("restore", prepare, drive, states, again(make), ROOM, syncs_beside)


class SlowManager(Manager):
    def do(self, asked: str) -> None:
        if asked.startswith("start"):
            sync_beside(self.index.path, OFTEN)
        super().do(asked)


@contextmanager
def kept_by_systemd(program: str, path: str) -> Iterator[tuple[Kept, str]]:
    """The index at a path, if there is one, and a folder of commands that stop and start it."""
    with tempfile.TemporaryDirectory() as folder:
        index = Kept(program, path, at=AT)
        with SlowManager(f"{folder}/commands", index) as manager:
            index.keeper.start()
            try:
                if os.path.exists(path):
                    index.is_wanted.set()
                    assert index.listens.wait(timeout=60), index.faults
                yield index, manager.folder
            finally:
                index.__exit__()
