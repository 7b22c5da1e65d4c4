"""Requests that are under way while a test does something else."""
from __future__ import annotations

import threading
import time
from collections.abc import Callable


class Asked(threading.Thread):
    """A request that is under way, and its reply and the seconds that it took once that is there."""

    def __init__(self, call: Callable[..., tuple], *words: object, **more: object):
        super().__init__(daemon=True)
        self.call, self.seconds = lambda: call(*words, **more), 0.0
        self.reply: tuple | None = None
        self.start()

    def run(self) -> None:
        begun = time.monotonic()
        self.reply = self.call()
        self.seconds = time.monotonic() - begun

    def ended(self) -> tuple:
        """The reply, or an empty one if the request failed."""
        self.join()
        return self.reply or (None, {}, b"")
