"""What an earlier run of the gate proved, and of which files: `tests/run --kept` leaves it out while these are the
same. It is kept in tests/out, so a fresh clone has nothing."""
from __future__ import annotations

import hashlib
import json
import os
import subprocess
from collections.abc import Iterator, Sequence
from contextlib import suppress

from support.durations import FOLDER
from support.places import PROGRAM, TOP

PROVED = FOLDER / "proved.json"
# what is made of sources
MADE = ("out", "try", "__pycache__")


def files_of(place: str) -> Iterator[str]:
    """The paths of a file or of all files below a folder, from the top, but for what is made of them."""
    if os.path.isfile(f"{TOP}/{place}"):
        yield place
    for folder, folders, names in os.walk(f"{TOP}/{place}"):
        folders[:] = sorted({*folders} - {*MADE})
        yield from (os.path.relpath(f"{folder}/{name}", TOP) for name in sorted(names))


def sum_of(places: Sequence[str]) -> str:
    """A sum of the kit and of all files below these places."""
    with suppress(OSError):
        kit = subprocess.run(["rt", "version"], stdin=subprocess.DEVNULL, stdout=subprocess.PIPE, check=False).stdout
        summed = hashlib.sha256(kit)
        for path in (path for place in places for path in files_of(place)):
            with open(f"{TOP}/{path}", "rb") as kept:
                summed.update(f"\0{path}\0{hashlib.sha256(kept.read()).hexdigest()}".encode())
        return summed.hexdigest()
    return ""


def sum_of_program() -> str:
    """The sum of the program that was proved, or nothing if there is none."""
    with suppress(OSError), open(PROGRAM, "rb") as kept:
        return hashlib.sha256(kept.read()).hexdigest()
    return ""


def known() -> dict[str, list[str]]:
    """By the words of a command that passed, the sums of what it was given and of the program."""
    try:
        return dict(json.loads(PROVED.read_text()))
    except (OSError, ValueError):
        return {}


def is_kept(words: Sequence[str], of: str) -> bool:
    """Whether a command passed of the files that have this sum, and the program of that run is there."""
    return bool(of) and known().get(" ".join(words)) == [of, sum_of_program()] and bool(sum_of_program())


def keep(words: Sequence[str], of: str, is_well: bool) -> None:
    """Keeps that a command passed of the files that have this sum, or forgets it."""
    now = {name: sums for name, sums in known().items() if name != " ".join(words)}
    if is_well and of:
        now[" ".join(words)] = [of, sum_of_program()]
    with suppress(OSError):
        FOLDER.mkdir(exist_ok=True)
        made = PROVED.with_suffix(f".{os.getpid()}")
        made.write_text(json.dumps(now))
        made.replace(PROVED)
