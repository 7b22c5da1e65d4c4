"""The record: a line of JSON for each accepted change."""
from __future__ import annotations

import json
import os
import threading
import time
from contextlib import contextmanager, suppress
from typing import Callable, Iterator, Mapping

from indexctl.ends import WRONG, Stop
from indexctl.terminal import note

# how often a record that another run has is asked for, each tenth of a second, before a person is told
QUIET_TRIALS = 20

try:
    import fcntl
except ImportError:
    # Windows has no locks of this kind: all but a record works there
    fcntl = None  # type: ignore[assignment]


class Record:
    """A file with a line of JSON for each accepted change: when, by whom (the first digits of the token's digest), and
    what. The room for a line is taken before the change is asked for, so that a full disk can't forget it."""

    def __init__(self, path: str) -> None:
        self.path, self.threads = path, threading.Lock()
        if not fcntl:
            raise Stop(WRONG, f"The record {path} can't be kept on this system, which has no locks for it. Unset it, "
                              "or run indexctl on Linux or macOS. Nothing was asked for.")
        try:
            self.file = os.open(path, os.O_RDWR | os.O_CREAT, 0o600)
        except OSError as end:
            raise Stop(WRONG, f"The record {path} can't be written: {end.strerror}. Nothing was asked for.") from end

    def write(self, line: bytes, at: int) -> None:
        while line:
            count = os.pwrite(self.file, line, at)
            line, at = line[count:], at + count
        os.fsync(self.file)

    def lock(self) -> None:
        """Waits until no other run has the record. One that Ctrl-Z stopped keeps it, so a long wait is told."""
        for _ in range(QUIET_TRIALS):
            with suppress(BlockingIOError):
                fcntl.flock(self.file, fcntl.LOCK_EX | fcntl.LOCK_NB)
                return
            time.sleep(0.1)
        note(f"Another indexctl is at work with the record {self.path}, and this one waits for its end.", "yellow")
        fcntl.flock(self.file, fcntl.LOCK_EX)

    @contextmanager
    def room(self, row: Mapping[str, object]) -> Iterator[Callable[[], None]]:
        """Gives what keeps this row. If that isn't called, the record stays as it was."""
        line = f"{json.dumps(row)}\n".encode()
        # a lock of the file is of this run, with all its threads
        with self.threads:
            yield from self.locked_room(row, line)

    def locked_room(self, row: Mapping[str, object], line: bytes) -> Iterator[Callable[[], None]]:
        self.lock()
        end, is_kept = os.fstat(self.file).st_size, []
        try:
            self.write(b" " * (len(line) - 1) + b"\n", end)
        except OSError as why:
            with suppress(OSError):
                os.ftruncate(self.file, end)
            raise Stop(WRONG, f"The record {self.path} can't be written: {why.strerror}. Make room, or name "
                              f"another file. This was not asked for: {json.dumps(row)}") from why

        def keep() -> None:
            is_kept.append(True)
            try:
                self.write(line, end)
            except OSError as failed:
                raise OSError(failed.errno, f"{failed.strerror}. This was accepted, and is in no record: "
                              f"{json.dumps(row)}", self.path) from failed
        try:
            yield keep
        finally:
            if not is_kept:
                os.ftruncate(self.file, end)
            fcntl.flock(self.file, fcntl.LOCK_UN)
