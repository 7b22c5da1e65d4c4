"""How far long work is, in words, and who reads them."""
from __future__ import annotations

import os
import sys

MIB = 1 << 20


def how_far(what: str, done: int, total: int, seconds: float, is_bytes: bool = False) -> str:
    """What is done, such as `names: 120 of 300, 40 %, 21.0 a second, 0:09 left`. In its first second a rate says
    nothing."""
    size, unit = (f"{done / MIB:.1f} of {total / MIB:.1f} MiB", " MiB") if is_bytes else (f"{done} of {total}", "")
    text = f"{what}: {size}, {100 * done // max(1, total)} %"
    if seconds < 1 or not done:
        return text
    rate = done / seconds
    left = max(0, total - done) / rate
    return f"{text}, {rate / MIB if is_bytes else rate:.1f}{unit} a second, {clock(left)} left"


def clock(seconds: float) -> str:
    """A time in minutes and seconds."""
    return f"{int(seconds) // 60}:{int(seconds) % 60:02}"


def is_watched() -> bool:
    """Whether standard error is a terminal on which a line can move."""
    return sys.stderr.isatty() and os.environ.get("TERM") != "dumb"


def in_journal() -> bool:
    """Whether standard error goes to the journal: systemd says which device and inode that is."""
    try:
        at = os.fstat(2)
    except OSError:
        return False
    return os.environ.get("JOURNAL_STREAM") == f"{at.st_dev}:{at.st_ino}"
