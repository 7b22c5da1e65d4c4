"""Long work: a line that moves on a terminal, and a line at its begin and one at its end in the journal."""
from __future__ import annotations

import os
import sys
import threading
import time
from contextlib import contextmanager
from typing import Callable, Iterator, Optional

from package_index.ends import held
from package_index.shown import MIB, clock, how_far, in_journal, is_watched

SECONDS_BETWEEN_DRAWINGS = 0.5


def write(text: str) -> None:
    """Prints on standard error. If nobody reads it any more, the work goes on."""
    try:
        print(text, end="", file=sys.stderr, flush=True)
    except OSError:
        sys.stderr = open(os.devnull, "w")


@contextmanager
def long_work(what: str, size: int, done: Optional[Callable[[], int]] = None) -> Iterator[None]:
    """Says on standard error that something of so many bytes is done meanwhile, how many bytes of it are, if `done`
    counts them, and for how long. If neither a person nor the journal reads it, as in a program that another one runs,
    it says nothing."""
    begun, name, is_over = time.monotonic(), os.path.basename(sys.argv[0]), threading.Event()
    whole = f"{what}, {size / MIB:.1f} MiB"

    def move() -> None:
        while not is_over.wait(SECONDS_BETWEEN_DRAWINGS):
            seconds = time.monotonic() - begun
            try:
                text = how_far(what, done(), size, seconds, is_bytes=True) if done else f"{whole}: {clock(seconds)}"
            except OSError:
                # a file that is counted may go
                continue
            write(f"\r{text}\033[K")

    mover = threading.Thread(target=move, daemon=True)
    is_moving, is_told = is_watched(), not is_watched() and in_journal()
    if is_moving:
        # a signal is for the work, which may hold it
        with held():
            mover.start()
    if is_told:
        write(f"{name}: {whole}\n")
    try:
        yield
    finally:
        is_over.set()
        if is_moving:
            mover.join()
            write("\r\033[K")
        if is_told:
            write(f"{name}: {what}: ended after {time.monotonic() - begun:.1f} s\n")
