"""Waiting for a condition, in place of a sleep that is too short on a busy machine."""
from __future__ import annotations

import time
from collections.abc import Callable


def wait_for(is_so: Callable[[], object], seconds: float = 60) -> bool:
    """Whether it was so before these seconds were over."""
    until = time.monotonic() + seconds
    while not is_so():
        if time.monotonic() > until:
            return False
        time.sleep(0.02)
    return True
