"""The lines of units and of nginx, which of them a planted bug changes, and what comes of a line without it."""
from __future__ import annotations

import glob
import os
import re
from collections import Counter
from collections.abc import Iterator
from typing import NamedTuple

from support.breaks import all_breaks
from support.places import SERVER, TOP

ROWS = f"{TOP}/tests/support/server/promises.txt"
# what looks at these rows sees each change of them, and so says nothing of a line
OWN = "test_unit_promises.py"


def directives(path: str) -> Iterator[tuple[str, int, int]]:
    """The lines of a unit or a part of nginx's configuration that say something, each with where it begins and ends; in
    a unit one that goes on after a backslash is whole. What stands round others in nginx, and what is for a reader
    alone, says nothing by itself."""
    with open(path, encoding="utf-8") as kept:
        text = kept.read()
    whole = r"(?:[^\\\n]|\\[^\n]|\\\n)+" if "/systemd/" in path else r"[^\n]+"
    for found in re.finditer(whole, text):
        line = found[0] if "/systemd/" in path else re.sub(r"(^|\s)#.*", "", found[0])
        said = " ".join(line.replace("\\\n", " ").split())
        if not said or said[0] in "#[}" or said.startswith("Description=") or said in ("server {", ")"):
            continue
        yield said, found.start(), found.start() + len(line.rstrip())


def files() -> list[str]:
    kinds = ("systemd/*.service", "systemd/*.timer", "systemd/*.path", "systemd/*.conf", "systemd/*/*.conf",
             "nginx/*.conf")
    return sorted(path for kind in kinds for path in glob.glob(f"{SERVER}/{kind}"))


def lines() -> Counter[tuple[str, str]]:
    """How often each line stands in each file, by its name."""
    return Counter((os.path.basename(path), said) for path in files() for said, _, _ in directives(path))


def seen_by_breaks() -> Counter[tuple[str, str]]:
    """How many of these a planted bug changes or leaves out: a test fails on each."""
    found: Counter[tuple[str, str]] = Counter()
    for path in files():
        name = os.path.relpath(path, TOP)
        with open(path, encoding="utf-8") as kept:
            text = kept.read()
        spans = [changed(text, old, new) for it in all_breaks() for file, old, new in it.changes
                 if file == name and not any(OWN in test for test in it.caught)]
        found.update((os.path.basename(path), said) for said, begin, end in directives(path)
                     if any(first < end and last > begin for first, last in spans))
    return found


def changed(text: str, old: str, new: str) -> tuple[int, int]:
    """From where to where a planted bug changes a text: what `old` has at its ends as `new` has it stays as it is."""
    at, head = text.index(old), len(os.path.commonprefix([old, new]))
    tail = len(os.path.commonprefix([old[head:][::-1], new[head:][::-1]]))
    return at + head, max(at + len(old) - tail, at + head + 1)


class Row(NamedTuple):
    """A line, how often it stands in which files, and what comes of it if it is not there."""
    line: str
    files: dict[str, int]
    why: str


def rows() -> list[Row]:
    with open(ROWS, encoding="utf-8") as kept:
        blocks = [it.splitlines() for it in kept.read().partition("\n\n")[2].strip().split("\n\n")]
    return [Row(line, {it.partition("*")[0]: int(it.partition("*")[2] or 1) for it in names.split()}, why)
            for line, why, names in blocks]
