"""What a command does that takes long: a line that moves on a terminal."""
from __future__ import annotations

import sys
import threading
import time
from collections.abc import Iterator
from contextlib import contextmanager
from typing import Callable


@contextmanager
def shown(text: str, usual: int = 0) -> Iterator[Callable[[str], None]]:
    """Says what is done, and gives what prints a step of it. On a terminal the line moves, and tells how long it has
    taken of what is usual."""
    begun, is_over, moves = time.monotonic(), threading.Event(), sys.stdout.isatty()
    clear = "\r\033[K" if moves else ""

    def move() -> None:
        while not is_over.wait(0.5):
            of = f" of about {usual // 60}:{usual % 60:02}" if usual else ""
            took = int(time.monotonic() - begun)
            sys.stdout.write(f"\r\033[K{text}: {took // 60}:{took % 60:02}{of}")
            sys.stdout.flush()

    mover = threading.Thread(target=move, daemon=True)
    if moves:
        mover.start()
    else:
        print(f"{text} ..", flush=True)
    try:
        yield lambda step: print(f"{clear}  {step}", flush=True)
    finally:
        is_over.set()
        if moves:
            mover.join()
    print(f"{clear}{text}: {time.monotonic() - begun:.0f} s", flush=True)
