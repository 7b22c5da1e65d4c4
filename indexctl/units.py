"""Sizes and moments, as people write and read them."""
from __future__ import annotations

import datetime
import decimal
import re
import time

from indexctl.ends import WRONG, Stop

UNITS = {"": 1, **{f"{it}B": 1000 ** at for at, it in enumerate("KMGT", 1)},
         **{f"{it}IB": 1024 ** at for at, it in enumerate("KMGT", 1)}, "B": 1}
SIX_WEEKS, YEAR = 3_628_800, 31_536_000


def size_of(text: str, now: int = 0) -> int:
    """The bytes that a text such as 5GiB, 700MB or +1GiB names; `+` adds to `now`."""
    found = re.fullmatch(r"(\+?)(\d+(?:\.\d+)?) ?([A-Za-z]*)", text, re.ASCII)
    if not found or found[3].upper() not in UNITS:
        raise Stop(WRONG, f"{text!r} is not a size. Write 5GiB, 700MB, a number of bytes, or +1GiB for so much more.")
    size = int(decimal.Decimal(found[2]) * UNITS[found[3].upper()])
    return now + size if found[1] else size


def human(size: float) -> str:
    """A number of bytes in words."""
    if size < 1024:
        return f"{size} B"
    for unit in ("KiB", "MiB", "GiB"):
        size /= 1024
        if size < 1024:
            return f"{size:.1f} {unit}"
    return f"{size / 1024:.1f} TiB"


def counted(number: int, what: str) -> str:
    return f"{number} {what}{'' if number == 1 else 's'}"


def moment(seconds: int) -> str:
    """A moment in words, to the minute."""
    return datetime.datetime.fromtimestamp(seconds, datetime.timezone.utc).strftime("%Y-%m-%d %H:%M UTC")


def due(seconds: int) -> str:
    """A moment in words, rounded up to the minute, so that what is due then is due."""
    return moment(-(-seconds // 60) * 60)


def iso(seconds: int) -> str:
    """A moment as a record has it."""
    return datetime.datetime.fromtimestamp(seconds, datetime.timezone.utc).strftime("%Y-%m-%dT%H:%M:%SZ")


def moment_now() -> str:
    return iso(int(time.time()))


def read_moment(text: str, place: str = "") -> int:
    """The Unix seconds of a moment at this place: ISO 8601 as nginx and this program write it, or a backup's name."""
    backup = re.search(r"(\d{8}T\d{6}Z)(?:\.db)?$", text)
    try:
        if backup:
            found = datetime.datetime.strptime(backup[1], "%Y%m%dT%H%M%SZ")
        else:
            found = datetime.datetime.fromisoformat(re.sub("Z$", "+00:00", text))
    except ValueError as end:
        raise Stop(WRONG, f"{place}{text!r} is not a moment. Write 2026-11-24T03:15:00Z, or a backup's name.") from end
    return int((found if found.tzinfo else found.replace(tzinfo=datetime.timezone.utc)).timestamp())
