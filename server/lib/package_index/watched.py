"""The units that watch, and those that failed: which are off, and which are well again."""
from __future__ import annotations

import os
import re
import time
from typing import Dict, Iterator, List, Sequence, Tuple

from package_index.commands import run
from package_index.units import shown

# what is off only if somebody stopped it. (An index is stopped for a restore, and index-health tells of it.)
TIMERS = ["index-health.timer", "index-backup.timer", "index-certificate.timer", "index-metrics.timer",
          "index-page.timer", "index-publishers.timer", "index-site.timer", "index-uncache-follow.service"]
# what looks has failed itself only if this is not reached
SELF = "index-alarms.service"
# so long a unit has to be well until that is told: one that fails each other minute is not
WELL = 300
STAMP = re.compile(r"(.+\.\w+)-\d*-\d+")
FRONTS = "index/server.d/fronts.conf"


def properties(units: Sequence[str], *names: str) -> Dict[str, Dict[str, str]]:
    """These properties of each of these units, by its name."""
    if not units:
        return {}
    printed = run("systemctl", "show", f"--property={','.join(('Id', *names))}", *units)
    blocks = [dict(re.findall(r"^(\w+)=(.*)$", block, re.M)) for block in printed.split("\n\n")]
    return {it["Id"]: it for it in blocks if it.get("Id") in units}


def off(taken: Sequence[str]) -> Iterator[str]:
    """Those that start with the machine, and were stopped since; but not those that another program starts."""
    for unit, it in properties([each for each in TIMERS if each not in taken], "UnitFileState", "ActiveState").items():
        if it.get("UnitFileState") == "enabled" and it.get("ActiveState") == "inactive":
            yield f"{unit} is enabled and does not run: systemctl start {unit}"


def started(now: float) -> float:
    """When index.service was started last, by the clock of now; 0 if it does not run."""
    since = shown("index.service", "ActiveEnterTimestampMonotonic")
    return now - (time.monotonic() - int(since) / 1e6) if since.isdigit() and int(since) else 0.0


def fronts_elsewhere(conf: str) -> bool:
    """Whether changes come through an nginx of another machine, which has its own log of them."""
    return not os.path.exists(conf) or os.path.exists(os.path.join(os.path.dirname(conf), "..", FRONTS))


def stamps(folder: str) -> Dict[str, List[str]]:
    """What index-alarm told of each unit: a file for each cause."""
    found: Dict[str, List[str]] = {}
    for name in sorted(os.listdir(folder) if os.path.isdir(folder) else ()):
        named = STAMP.fullmatch(name)
        if named:
            found.setdefault(named[1], []).append(f"{folder}/{name}")
    return found


def recovered(folder: str, since: Dict[str, float], now: float) -> Tuple[Dict[str, float], List[str]]:
    """Which of the units that failed are well since when, and what to say of those that have been so for long enough.
    Their files are removed: if they fail again, that is told at once."""
    told = stamps(folder)
    states = properties(list(told), "ActiveState", "Result")
    well: Dict[str, float] = {}
    said = []
    for unit, paths in told.items():
        it = states.get(unit, {})
        ended = it.get("ActiveState") in ("active", "inactive") or unit == SELF
        if ended and (it.get("Result") == "success" or unit == SELF):
            well[unit] = since.get(unit, now)
        elif it.get("ActiveState") in ("activating", "deactivating", "reloading") and unit in since:
            well[unit] = since[unit]
        if now - well.get(unit, now) >= WELL:
            said.append(f"over: {unit} is well again")
            for path in paths:
                os.remove(path)
            del well[unit]
    return well, said
