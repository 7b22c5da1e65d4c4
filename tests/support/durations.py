"""How long each test and each part of `tests/run` took last, kept in tests/out, which git does not keep."""
from __future__ import annotations

import json
import os
import re
from contextlib import suppress
from pathlib import Path

FOLDER = Path(__file__).resolve().parent.parent / "out"
LAST, TESTS = FOLDER / "parts.json", FOLDER / "tests.json"


def read(path: Path) -> dict[str, float]:
    """The seconds by name, or nothing if no run has left them or a run was stopped as it wrote them."""
    try:
        return dict(json.loads(path.read_text()))
    except (OSError, ValueError):
        return {}


def write(path: Path, seconds: dict[str, float]) -> None:
    """Adds what was measured to what is there. Tests that run tests write too, each a file of its own first. If
    nothing can be written, as on a full disk, nothing is kept."""
    made = path.with_suffix(f".{os.getpid()}")
    with suppress(OSError):
        try:
            FOLDER.mkdir(exist_ok=True)
            made.write_text(json.dumps({**read(path), **{name: round(took, 2) for name, took in seconds.items()}}))
            made.replace(path)
        finally:
            made.unlink(missing_ok=True)


def name_of(test: str) -> str:
    """The name of a test without that of its group, which xdist writes behind it."""
    return re.sub(r"@[^@\]]+$", "", test)


def rooms(known: set[str] | None = None) -> dict[str, tuple[int, float]]:
    """By room: how many tests ran, and the seconds that they took one after the other."""
    found: dict[str, tuple[int, float]] = {}
    for name, took in sorted(read(TESTS).items()):
        if known is None or name in known:
            room = name.split("/")[0]
            count, seconds = found.get(room, (0, 0.0))
            found[room] = count + 1, seconds + took
    return found
