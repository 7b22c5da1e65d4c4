"""How long a start of the index takes, and how far it is."""
from __future__ import annotations

import time
from typing import Optional

from package_index.copies import asked
from package_index.database import size_of
from package_index.shown import clock

# seconds of a processor, as docs/operators/SCALING.md has them: for each GiB, for each file, and for the log
FOR_A_GIB, FOR_A_FILE, FOR_THE_LOG = 6.0, 13e-6, 0.5
FILES = "SELECT coalesce(sum(live), 0) FROM names"
# which control group a program is in, and where they are
OWN_GROUP, GROUPS = "/proc/self/cgroup", "/sys/fs/cgroup"
# after so many seconds a start says how far it is, and then each time that it has taken twice as long
FIRST = 10.0


def seconds_of_start(db: str) -> float:
    """The processor time that a start on this database takes, by its length and its files. The files of one that can't
    be read are not counted: the start says what is wrong with it."""
    return FOR_A_GIB * size_of(db, ("", "-wal")) / (1 << 30) + FOR_A_FILE * sum(asked(db, FILES)) + FOR_THE_LOG


def processor_seconds() -> Optional[float]:
    """The processor time of the unit that this program belongs to; None if no control group counts it."""
    try:
        with open(OWN_GROUP, encoding="utf-8") as own:
            group, = (line[3:].rstrip("\n") for line in own if line.startswith("0::"))
        with open(f"{GROUPS}{group}/cpu.stat", encoding="utf-8") as counted:
            return int(dict(line.split() for line in counted)["usage_usec"]) / 1e6
    except (OSError, ValueError, KeyError):
        return None


class Start:
    """A start that is under way."""

    def __init__(self, db: str) -> None:
        self.whole, self.begun, self.due = seconds_of_start(db), time.monotonic(), FIRST
        self.before = processor_seconds()

    def how_far(self) -> str:
        """What is to be said now; nothing for most of the time."""
        passed = time.monotonic() - self.begun
        if passed < self.due:
            return ""
        while self.due <= passed:
            self.due *= 2
        used = processor_seconds()
        text = f"starting for {clock(passed)}"
        if used is None or self.before is None:
            return f"{text}, of about {self.whole:.0f} s of a processor"
        return f"{text}: {used - self.before:.0f} of about {self.whole:.0f} s of a processor are used"
