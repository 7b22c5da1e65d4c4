"""index-restore, ended by a signal before one of its steps: a call that changes a file or a name, or starts a
command."""
from __future__ import annotations

import os
import shutil
import signal
import subprocess
import sys
from collections.abc import Iterator, Mapping, Sequence
from contextlib import contextmanager
from dataclasses import dataclass

import pytest
from support.places import BIN
from support.running import kill_after, run_command
from support.server.kept import Kept
from support.server.manager import Manager
from support.server.restores import names_of
from support.serving import make_index

# Ctrl-C, systemd, a terminal that is closed, and a kill, after which nothing can be put in order
SIGNALS = [pytest.param(signal.SIGINT, marks=pytest.mark.slow), signal.SIGTERM,
           pytest.param(signal.SIGHUP, marks=pytest.mark.slow), signal.SIGKILL]
# the script that follows, which gets the signal of this number before its step of this number, from 0 on
STOPPED = """
import os, runpy, sys
left, number = int(sys.argv.pop(1)), int(sys.argv.pop(1))
begun = left
CALLS = {"os.mkdir", "os.link", "os.remove", "os.rename", "os.rmdir", "os.chmod", "os.chown", "subprocess.Popen",
         "http.client.connect", "http.client.send", "fcntl.ioctl"}
def step():
    global left
    left -= 1
    if left == -1:
        os.kill(os.getpid(), number)
def seen(event, words):
    if event in CALLS or event == "open" and words[2] & (os.O_WRONLY | os.O_RDWR):
        step()
sys.addaudithook(seen)
def counted(call):
    def counting(*words):
        step()
        return call(*words)
    return counting
for name in ("fsync", "fdatasync", "pwrite", "ftruncate"):
    setattr(os, name, counted(getattr(os, name)))
sys.argv.pop(0)
try:
    runpy.run_path(sys.argv[0], run_name="__main__")
finally:
    left >= 0 and print("it has no such step, but", begun - left, file=sys.stderr)
"""
NOT_REACHED = "it has no such step"
# stands for `cp`: the copy of this number, from 0 on, has half of its bytes when its caller gets a signal
HALF = """#!/bin/sh
echo >> "$COPIES"
[ "$(wc -l < "$COPIES")" -gt "$HALVED" ] || exec /bin/cp "$@"
for it; do from=$to; to=$it; done
head -c $(($(stat -c %s "$from") / 2)) "$from" > "$to"
kill "-$SIGNAL" "$PPID"
exec sleep 5
"""
# the same, where no file can be moved to this name
FAILING = """
import errno, os, runpy, sys
target, rename = sys.argv.pop(1), os.rename
def fails(source, path, **more):
    if os.path.basename(path) == target:
        raise OSError(errno.ENOSPC, os.strerror(errno.ENOSPC), path)
    rename(source, path, **more)
os.rename = fails
sys.argv.pop(0)
runpy.run_path(sys.argv[0], run_name="__main__")
"""
KEPT = "f/0a/" + "1" * 32


def ended_before(step: int, number: int, words: Sequence[str], **setting: str) -> subprocess.CompletedProcess:
    """The end of a script with these words that got this signal before its step of this number."""
    return run_command([sys.executable, "-c", STOPPED, str(step), str(int(number)), *words], 300, **setting)


def is_reached(ended: subprocess.CompletedProcess) -> bool:
    """Whether it had such a step."""
    return NOT_REACHED not in ended.stdout


def steps_of(ended: subprocess.CompletedProcess) -> int:
    """How many steps it had that got to its end."""
    return int(ended.stdout.rpartition(f"{NOT_REACHED}, but ")[2].split()[0])


def halved(folder: str, copy: int, number: int) -> dict[str, str]:
    """A setting in which the copy of this number gets no further than its middle, and then this signal comes."""
    os.makedirs(f"{folder}/half")
    with open(f"{folder}/half/cp", "w") as made:
        made.write(HALF)
    os.chmod(made.name, 0o755)
    return {"PATH": f"{folder}/half:{os.environ['PATH']}", "COPIES": f"{folder}/half/count", "HALVED": str(copy),
            "SIGNAL": str(int(number))}


@dataclass
class Stopped:
    """An index in a folder that serves the name `later`, and a copy that has the name `kept`."""
    folder: str
    program: str
    index: Kept
    manager: Manager

    @property
    def copy(self) -> str:
        return f"{self.folder}/copies/index-20260101T000000Z.db"

    def run(self, *front: str, copy: str | None = None, half: Mapping[str, str] | None = None
            ) -> subprocess.CompletedProcess:
        """The end of a restore of the copy behind these words, with `cp` as `halved` has it if that is given."""
        words = [*front, f"{BIN}/index-restore", copy or self.copy, "--db", self.index.path, "--cache",
                 f"{self.folder}/cache", "--changes", f"{self.folder}/changes.log",
                 "--url", f"http://127.0.0.1:{self.index.port}", "--with-pypi", f"{self.folder}/with-pypi.conf"]
        setting = {"PATH": os.environ["PATH"], **(half or {})}
        setting["PATH"] = f"{self.manager.folder}:{setting['PATH']}"
        return run_command(words, 300, INDEX=self.program, **setting)

    def ended_before(self, step: int, number: int) -> subprocess.CompletedProcess:
        return self.run(sys.executable, "-c", STOPPED, str(step), str(int(number)))

    def names(self, db: str | None = None) -> list | None:
        return names_of(db or self.index.path, self.folder)

    def left(self) -> list:
        """What stands beside the database."""
        return sorted(it for it in os.listdir(f"{self.folder}/var") if not it.startswith("index.db"))

    def is_served(self) -> bool:
        return self.index.is_wanted.is_set() and self.index.ask("GET", "/names/later")[0] == 200


def make_both(program: str, folder: str) -> str:
    """A folder with such a database and such a copy."""
    for name, path in (("later", "var/index.db"), ("kept", "copies/index-20260101T000000Z.db")):
        os.makedirs(os.path.dirname(f"{folder}/{path}"))
        kill_after(program, make_index(program, f"{folder}/{path}"),
                   [f'{{"at":1,"token":"office","do":"claim","name":"{name}"}}\n'.encode()])
    os.makedirs(os.path.dirname(f"{folder}/cache/{KEPT}"))
    for name in (f"cache/{KEPT}", "with-pypi.conf", "changes.log"):
        with open(f"{folder}/{name}", "w"):
            pass
    return folder


@contextmanager
def serving(program: str, folder: str) -> Iterator[Stopped]:
    """Of a folder of `make_both`."""
    with Kept(program, f"{folder}/var/index.db") as index, Manager(f"{folder}/manager", index) as manager:
        yield Stopped(folder, program, index, manager)


def each_step(program: str, made: str, folder: str, number: int) -> Iterator[tuple]:
    """Each step of a restore, with an index of its own and how the restore ended that got the signal there."""
    step, has_more = 0, True
    while has_more:
        at = shutil.copytree(made, f"{folder}/{step}")
        with serving(program, at) as restores:
            ended = restores.ended_before(step, number)
            has_more = is_reached(ended)
            if has_more:
                yield step, restores, ended
        shutil.rmtree(at)
        step += 1
