"""nginx's log of changes, with what was rotated away of it; one for each nginx that stands before the index."""
from __future__ import annotations

import datetime
import gzip
import heapq
import json
import zlib
from typing import Iterator, List, NamedTuple, Optional, Sequence, Tuple

from package_index.log_place import rotated

# lines of several processes of nginx stand so far from their order at most
SLACK = datetime.timedelta(minutes=1)
# what of a log can't be read here
OTHER = ".xz", ".bz2", ".zst", ".lz4", ".Z"
# how a line ends that stands for the rest of a damaged log; no line of nginx does
DAMAGED = "no more of this log can be read"


def moment_in(line: str) -> Optional[datetime.datetime]:
    """The moment of a line of nginx's log of changes; None if it can't be read."""
    try:
        said = json.loads(line)
        moment = datetime.datetime.fromisoformat(said.get("at") or said.get("time"))
        return moment if moment.tzinfo else None
    except (ValueError, TypeError, AttributeError):
        return None


def lines_of(path: str) -> Iterator[str]:
    """The lines of a log, which may be compressed. One that is damaged, as by a power cut, ends by a line that says so:
    what was read, and other logs, are not lost with it."""
    if path.endswith(OTHER):
        yield f"{path}: it is compressed, and not by gzip: {DAMAGED}\n"
        return
    with gzip.open(path, "rt", errors="replace") if path.endswith(".gz") else open(path, errors="replace") as log:
        try:
            yield from log
        except (EOFError, zlib.error, gzip.BadGzipFile) as end:
            yield f"{path}: {end}: {DAMAGED}\n"


class Step(NamedTuple):
    """A clock that was set back between two lines: what it was before and after."""
    before: datetime.datetime
    after: datetime.datetime


class Log:
    """A log that is read through once, and what is seen of it meanwhile."""

    def __init__(self, path: str, since: datetime.datetime, uploaded: Optional[datetime.datetime]) -> None:
        self.path, self.since, self.uploaded = path, since, uploaded
        self.first: Optional[datetime.datetime] = None
        self.last: Optional[datetime.datetime] = None
        self.steps: List[Step] = []
        self.count, self.damaged = 0, []  # type: int, List[str]

    def lines(self) -> Iterator[Tuple[datetime.datetime, str]]:
        """The lines from `since` on, each with the latest moment up to it. One without a moment is among them."""
        latest = self.since
        for path in rotated(self.path):
            for line in filter(str.strip, lines_of(path)):
                moment = moment_in(line)
                self.see(moment, line)
                if not moment or moment >= self.since:
                    latest = max(latest, moment or latest)
                    yield latest, f"{line.rstrip()}\n"

    def see(self, moment: Optional[datetime.datetime], line: str) -> None:
        if line.rstrip().endswith(DAMAGED):
            self.damaged.append(line.strip())
        elif not moment or moment >= self.since:
            self.count += 1
        if not moment:
            return
        self.first = self.first or moment
        if self.last and self.last - moment > SLACK and moment < self.since:
            self.steps.append(Step(self.last, moment))
        self.last = moment
        if self.steps and self.uploaded and abs(moment - self.uploaded) <= SLACK and is_upload(line):
            # the copy has what came after such a step, so it was made later
            self.steps = [it for it in self.steps if self.uploaded - it.before <= SLACK]

    def said(self) -> List[str]:
        """What may be missing among the lines. A log without one is that of a new machine: the changes are in the log
        of the old one."""
        if not self.first:
            return [f"{self.path} has no line. If there were changes since then, they are missing, or in the log of "
                    "another machine."]
        late = [f"{self.path} begins at {in_utc(self.first)}. If there were changes before, they are missing."]
        back = [f"The clock of {self.path} was set back to {in_utc(it.after)}. If the copy was made before, changes of "
                "after that are missing: look for them in the log." for it in self.steps]
        return (late if self.first > self.since else []) + back


def is_upload(line: str) -> bool:
    """Whether a line that can be read is of an upload that was accepted."""
    said = json.loads(line)
    return said.get("status") in (200, 201) and (said.get("method") == "PUT" or said.get("path") == "/legacy/")


def in_utc(moment: datetime.datetime) -> str:
    return f"{moment.astimezone(datetime.timezone.utc):%Y-%m-%d %H:%M:%S} UTC"


def changes_since(logs: Sequence[str], since: datetime.datetime, target: str,
                  uploaded: Optional[datetime.datetime] = None) -> str:
    """Gathers the lines of logs of changes since a copy, whose last upload was at that moment, and of those that were
    rotated away, into a file. Returns what to say of it. They are merged as they are read, however many there are."""
    missing = [f"There is no {log}. Look for POST, PUT and DELETE in nginx's other logs since then." for log in logs
               if not rotated(log)]
    if len(missing) == len(logs):
        return "\n   ".join(missing)
    read = [Log(it, since, uploaded) for it in logs]
    with open(target, "w") as made:
        made.writelines(line for _, line in heapq.merge(*(it.lines() for it in read), key=lambda it: it[0]))
    said = [f"nginx passed on {sum(it.count for it in read)} of them. They are in {target}, oldest first."]
    damaged = [line for it in read for line in it.damaged]
    return "\n   ".join([*said, *damaged, *missing, *(line for it in read for line in it.said())])
