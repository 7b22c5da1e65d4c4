"""nginx's logs of changes, read line by line in the order of their moments. Of each open log one line is in memory."""
from __future__ import annotations

import gzip
import heapq
import os
import zlib
from dataclasses import dataclass
from typing import Any, Dict, Iterator, List, NamedTuple, Optional, Sequence, TextIO, Tuple

from indexctl.ends import WRONG, Stop
from indexctl.terminal import note
from indexctl.transport import object_of
from indexctl.units import counted, read_moment

GZIP = b"\x1f\x8b"


class Line(NamedTuple):
    """A line of a log, with its moment in Unix seconds."""
    moment: int
    found: Dict[str, Any]


# a log by its next line: its moment, how many logs were opened before it, the line, and those behind it
Head = Tuple[int, int, Line, Iterator[Line]]


@dataclass(order=True)
class Waiting:
    """A log that is opened as soon as the reading has come to the moment of its first line. Of two that begin in one
    second the one comes first that was written last earlier: it was rotated away."""
    moment: int
    written: float
    path: str


def text_of(path: str) -> TextIO:
    """A log as text, compressed or not."""
    with open(path, "rb") as log:
        is_gzip = log.read(2) == GZIP
    if is_gzip:
        return gzip.open(path, "rt", encoding="utf-8", errors="replace")
    return open(path, encoding="utf-8", errors="replace")


def line_of(text: str) -> Optional[Line]:
    """A line, or None for one that is malformed."""
    found = object_of(text.encode())
    try:
        return Line(read_moment(found["at"]), found) if found and isinstance(found.get("at"), str) else None
    except Stop:
        return None


def lines_of(path: str) -> Iterator[Line]:
    """The lines of a log. What can't be read, such as the end of a compressed log that a power cut damaged, is told."""
    lost = 0
    try:
        with text_of(path) as log:
            for text in log:
                line = line_of(text)
                if line:
                    yield line
                elif text.strip():
                    lost += 1
    except (OSError, EOFError, zlib.error) as end:
        note(f"{path}: no more of it can be read: {end}", "yellow")
    if lost:
        note(f"{path}: {counted(lost, 'line')} can't be read", "yellow")


def waiting_of(paths: Sequence[str]) -> List[Waiting]:
    """The logs that have a line, the latest first. Stops if one can't be opened."""
    found = []
    for path in paths:
        try:
            with text_of(path) as log:
                first = next((it for it in map(line_of, log) if it), None)
        except (EOFError, zlib.error, gzip.BadGzipFile) as end:
            note(f"{path}: none of it can be read: {end}", "yellow")
            continue
        except OSError as end:
            raise Stop(WRONG, f"{path} can't be read: {end.strerror or end}") from end
        if first:
            found.append(Waiting(first.moment, os.stat(path).st_mtime, path))
    return sorted(found, reverse=True)


def push(heads: List[Head], number: int, log: Iterator[Line]) -> None:
    line = next(log, None)
    if line:
        heapq.heappush(heads, (line.moment, number, line, log))


def lines_in(paths: Sequence[str]) -> Iterator[Line]:
    """The lines of all these logs by their moments. Those of several nginx overlap, and those that were rotated away
    follow one another, so few are open at a time."""
    waiting, number = waiting_of(paths), 0
    heads: List[Head] = []
    while waiting or heads:
        while waiting and (not heads or waiting[-1].moment <= heads[0][0]):
            number += 1
            push(heads, number, lines_of(waiting.pop().path))
        if heads:
            _, its, line, log = heapq.heappop(heads)
            yield line
            push(heads, its, log)
