"""An index that is started again as soon as it ends, as systemd does, and somebody who uploads to it all the while."""
from __future__ import annotations

import http.client
import random
import threading
import time
from collections.abc import Callable, Iterator
from contextlib import contextmanager

from support.ports import free_port
from support.serving import Asking, Index
from support.server.waits import wait_for

# how long systemd waits before it starts the index again
PAUSE = 0.2
MOST_REQUESTS = 1_000_000


class Kept(Asking):
    """The index on one port. It ends by itself after so many connections, and is then started again. `where` says of
    one that is not on loopback where it is."""

    def __init__(self, program: str, path: str, requests: int = MOST_REQUESTS, port: int | None = None, **where):
        self.program, self.path, self.requests, self.port = program, path, requests, port or free_port()
        self.where = where
        self.is_wanted, self.is_over = threading.Event(), threading.Event()
        self.listens = threading.Event()
        self.starts = 0
        self.faults: list[SystemExit] = []
        self.index: Index
        self.keeper = threading.Thread(target=self.keep, daemon=True)

    def keep(self) -> None:
        while not self.is_over.is_set():
            if not self.is_wanted.wait(timeout=0.05):
                continue
            try:
                with Index(self.program, self.requests, self.path, 60, port=self.port, **self.where) as self.index:
                    self.starts += 1
                    self.listens.set()
                    while self.is_wanted.is_set() and self.index.process.poll() is None:
                        time.sleep(0.02)
            except SystemExit as end:
                self.faults.append(end)
            self.listens.clear()
            self.is_over.wait(PAUSE)

    def __enter__(self) -> Kept:
        self.is_wanted.set()
        self.keeper.start()
        if not self.listens.wait(timeout=60):
            self.__exit__()
            raise RuntimeError(f"the index does not listen: {self.faults}")
        return self

    def __exit__(self, *_: object) -> None:
        self.is_over.set()
        self.is_wanted.clear()
        self.keeper.join()

    def stop(self) -> None:
        self.is_wanted.clear()
        wait_for(lambda: not self.listens.is_set(), 60)

    @contextmanager
    def away(self) -> Iterator[None]:
        """The index is away as long as the block lasts."""
        self.stop()
        try:
            yield
        finally:
            self.is_wanted.set()

    def starts_again(self) -> None:
        """Stops the index, and waits until it listens again."""
        with self.away():
            pass
        self.listens.wait(timeout=60)

    def ends_often(self, goes_on: Callable[[], bool], chance: random.Random) -> None:
        """Ends the index about a second after each of its starts, and as a crash would each second time."""
        is_crash = False
        while goes_on():
            self.listens.wait(timeout=60)
            time.sleep(chance.uniform(0.5, 1.5))
            self.index.process.kill() if is_crash else self.index.process.terminate()
            is_crash = not is_crash

    def ask(self, *request, **headers) -> tuple:
        self.listens.wait(timeout=60)
        return self.index.ask(*request, **headers)


class Uploader(threading.Thread):
    """Uploads files of a project of its own to an index, or to what stands in front of one, until it is stopped or a
    moment has come, with a pause after each. `files` has what was acknowledged. What is to come again later does."""

    def __init__(self, index: Asking, project: str, until: float, chance: random.Random, pause: float = 0):
        super().__init__(daemon=True)
        self.index, self.project, self.until, self.pause = index, project, until, pause
        self.chance = random.Random(chance.random())
        self.files: dict[str, bytes] = {}
        while index.claim(project)[0] == 503:
            time.sleep(0.5)

    def run(self) -> None:
        number = 0
        while time.monotonic() < self.until:
            file, body = f"{self.project}-1.{number}.tar.gz", self.chance.randbytes(self.chance.randrange(60_000))
            try:
                reply = self.index.upload(self.project, file, body)
            except (OSError, http.client.HTTPException):
                time.sleep(0.1)
                continue
            if reply[0] in (200, 201):
                self.files[file] = body
                number += 1
                time.sleep(self.pause)

    def stop(self) -> None:
        self.until = 0
        self.join()

    def missing(self, index: Asking, files: dict | None = None) -> list:
        """The acknowledged files that the index does not give back as they were."""
        wanted = self.files if files is None else files
        return [it for it, body in wanted.items() if index.ask("GET", f"/files/{self.project}/{it}")[2] != body]
