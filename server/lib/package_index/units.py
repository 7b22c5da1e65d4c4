"""The units of an index: which database they serve, how they are stopped for a while, and whether they start with the
machine."""
from __future__ import annotations

import os
from typing import List, Sequence

from package_index.commands import run
from package_index.ends import Refused
from package_index.two_machines import UNITS, is_shared

NO_UNIT = "none"
NOT_ENABLED = """These units are not enabled, so they stay off when the machine starts:
   systemctl enable --now {units}
"""


class Units:
    """The units that are stopped for the restore, and are started again however it ends. With the one name `none`, as
    in a container, there are none, and no systemd is asked."""

    def __init__(self, names: Sequence[str]) -> None:
        self.names: Sequence[str] = [] if list(names) == [NO_UNIT] else names
        self.are_stopped = False

    def stop(self) -> None:
        self.are_stopped = True
        if self.names:
            run("systemctl", "stop", *self.names)

    def start(self) -> None:
        if self.are_stopped:
            self.are_stopped = False
            if self.names:
                run("systemctl", "start", *self.names)


def shown(unit: str, name: str) -> str:
    """A property of a unit, or nothing if it has none."""
    return run("systemctl", "show", f"--property={name}", "--value", unit).strip()


def want_units_of(db: str, units: Sequence[str]) -> None:
    """Refuses a unit that is of another database: the restore would stop and start that."""
    for unit in units:
        command = shown(unit, "ExecStart")
        paths = [os.path.realpath(word) for word in command.split() if word.startswith("/")]
        if command and db not in paths:
            raise Refused(f"{unit} does not serve {db}: name its own unit by --unit, and its --db and --url")


def beside(unit: str) -> List[str]:
    """A unit that serves an index, with the timers of that index: index@8081.service has index-health@8081.timer. Other
    units are for all indexes."""
    kind, at, port = unit.partition(".")[0].partition("@")
    if kind != "index":
        return [unit]
    own = [f"index-{timer}{at}{port}.timer" for timer in ("backup", "health")]
    return [unit, *own, "index-alarms.timer", "index-certificate.timer", "index-uncache-follow.service"]


def not_enabled(units: Sequence[str]) -> List[str]:
    """Those of these units, and of the timers beside them, that are off once the machine starts again. Of two machines
    none may start those that `index-take` starts."""
    taken = UNITS if is_shared() else []
    return [it for unit in units for it in beside(unit) if it not in taken and shown(it, "UnitFileState") == "disabled"]


def enable(units: Sequence[str]) -> str:
    """Enables and starts units. Returns what to say of it."""
    run("systemctl", "enable", "--now", *units)
    return f"enabled: {' '.join(units)}\n"
