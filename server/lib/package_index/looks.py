"""What looks at a machine, one after the other, tell of it: a disk that fills, a clock that was set, a unit that is
started again and again, changes that fail, a rise of refused ones, a backup that is late, a log that is not written, a
follower that stays behind it."""
from __future__ import annotations

import os
from typing import Dict, Iterable, List, NamedTuple, Optional, Sequence

from package_index.changes import moment_in
from package_index.database import COPY, VOLUME, moment_of
from package_index.followed import LONGEST, Place, is_followed_by, left_at, place_in
from package_index.log_place import rotated
from package_index.notes import last_of
from package_index.tallies import DAY, FAILED, HOUR, NO_TOKEN, REFUSED, Tally, within

# a disk is told so long before it is full, by looks that are at least so far apart
DISK_DAYS, DISK_LOOKS = 7, 6 * HOUR
CLOCK_SECONDS = 60
RESTARTS = 3
BACKUP_HOURS = 26
# a punch that was missed is made good in the next night; one after a ban waits for a backup, and no longer than this
PUNCH_HOURS, BANNED = 50, 3600
# so many in the last hour are a rise, if they are ten times those of an hour before
MANY, TIMES = 100, 10
# so long may a log stay behind the database, or a follower behind the log: longer than a request waits in nginx
BEHIND = 120


class Look(NamedTuple):
    """What one look found. `up` is the time since the start of the machine, whose name is `boot`; no clock that is set
    changes it."""
    at: float
    boot: str
    up: float
    room: Dict[str, int]
    restarts: Dict[str, int]


def disks(looks: Sequence[Look]) -> Iterable[str]:
    """The last of these looks, with those of the day before it."""
    now = looks[-1]
    for folder, free in now.room.items():
        then = next((it for it in looks if now.at - it.at <= DAY and folder in it.room), now)
        used, passed = then.room[folder] - free, now.at - then.at
        if used > 0 and passed >= DISK_LOOKS and free / used * passed < DISK_DAYS * DAY:
            yield (f"the disk of {folder} is full in {free / used * passed / DAY:.1f} days, at the rate of the last "
                   f"{passed / HOUR:.0f} hours")


def clock(before: Look, now: Look) -> Iterable[str]:
    if now.boot == before.boot:
        ahead = (now.at - before.at) - (now.up - before.up)
    else:
        # how long the machine was off nobody knows
        ahead = min(0.0, now.at - before.at)
    if abs(ahead) > CLOCK_SECONDS:
        yield f"the clock went {'ahead' if ahead > 0 else 'back'} by {abs(ahead):.0f} seconds: timedatectl"


def restarted(before: Look, now: Look) -> Iterable[str]:
    for unit, number in now.restarts.items():
        if now.boot == before.boot and number - before.restarts.get(unit, number) > RESTARTS:
            yield (f"{unit} was started again {number - before.restarts[unit]} times in "
                   f"{(now.up - before.up) / 60:.0f} minutes, as if another program had its port: journalctl -u {unit}")


def made_at(copy: str) -> float:
    """When a copy was made, at the latest: by its name, or by when the file was written if that is earlier."""
    named = moment_of(copy)
    written = os.path.getmtime(copy)
    return min(named.timestamp(), written) if named else written


def folders_of(backups: str, units: Iterable[str]) -> List[str]:
    """The folder of copies, or those of several indexes in it, which are named by their ports: also those that are not
    there of units that are."""
    there = {it for it in (os.listdir(backups) if os.path.isdir(backups) else ()) if it.isdigit()}
    ports = {it.partition("@")[2].partition(".")[0] for it in units if "@" in it}
    own = [] if there or ports and "index.service" not in units else [backups]
    return own + [f"{backups}/{it}" for it in sorted(there | ports)]


def backups(folder: str, units: Iterable[str], now: float, begun: float) -> Iterable[str]:
    """Of indexes that are looked at since `begun`. A copy of a later time than now counts for nothing."""
    for each in folders_of(folder, units):
        names = os.listdir(each) if os.path.isdir(each) else []
        moments = [made_at(f"{each}/{it}") for it in names if COPY.fullmatch(it)]
        made = max((it for it in moments if it <= now), default=begun)
        if now - made > BACKUP_HOURS * HOUR:
            yield f"no backup was made in {each} for {(now - made) / HOUR:.0f} hours: systemctl status 'index-backup*'"


def punches(db: str, notes: str, marks: Iterable[str], now: float, begun: float) -> Iterable[str]:
    """Of the volume of each index that is looked at since `begun`, the one at DB and those in folders beside it that
    are named by their ports: what index-punch noted of its last run, and whether that was before the last ban."""
    (folder, name), banned = os.path.split(db), written(marks)
    ports = sorted(it for it in (os.listdir(folder) if os.path.isdir(folder) else ()) if it.isdigit())
    for own in ("", *ports):
        volume, last = os.path.join(folder, own, name + VOLUME), last_of(os.path.join(notes, own))
        began = last.began if last and last.began <= now else begun
        if not os.path.exists(volume):
            continue
        if began < banned < now - BANNED:
            yield (f"what was banned {(now - banned) / 60:.0f} minutes ago is still in {volume}: "
                   "systemctl status 'index-punch*'")
        elif now - began > PUNCH_HOURS * HOUR:
            yield f"{volume} was not punched for {(now - began) / HOUR:.0f} hours: systemctl status 'index-punch*'"
        elif last and last.kept:
            yield (f"{last.kept} bytes of deleted files stay in {volume} or its copies: they are zeros now, and the "
                   "file system there has no holes")


def failed(tally: Tally, now: float) -> Iterable[str]:
    """One is enough: the index answers 500 only if its store failed, and nginx only if it could not do its part."""
    last, _ = within(tally, now, FAILED)
    if last:
        yield (f"{last} change{'s' if last > 1 else ''} failed (500) in the last hour: is the disk of the database "
               "full, or read-only? df, dmesg, journalctl -u index")


def refused(tally: Tally, now: float) -> Iterable[str]:
    """Those of an hour are compared with the hours before it."""
    for kind, what in (NO_TOKEN, "401 (no such token)"), (REFUSED, "another refusal"):
        last, before = within(tally, now, kind)
        if last >= MANY and last > TIMES * before / 23:
            yield f"{last} changes were answered by {what} in the last hour: nginx's log of changes"


def written(paths: Iterable[str]) -> float:
    """When the last of these files was written; 0 if none is there."""
    return max((os.path.getmtime(it) for it in paths if os.path.exists(it)), default=0.0)


def unlogged(db: str, log: str, started: float) -> Iterable[str]:
    """Whether a database was changed after the last line of nginx's log of changes, by an index that runs since
    `started`. (A start may write too.)"""
    late = written((db, f"{db}-wal")) - max(written(rotated(log)), started)
    if started and late > BEHIND:
        yield (f"{db} was changed {late / 60:.0f} minutes after the last line of {log}: nginx does not write it, or "
               "changes go past nginx. No such ban or delete leaves nginx's cache, and no restore finds these changes: "
               "ls -l, nginx -s reopen")


def late_by(place: str, log: str, now: float) -> Optional[float]:
    """How many seconds ago the first line came that index-uncache-follow has left unread; 0 if there is none, and None
    if it does not run here."""
    read = place_in(place, Place)
    left = left_at(log, read) if read else None
    if not left:
        return None
    with left:
        line = left.readline(LONGEST)
        if not line and is_followed_by(log, left):
            with open(log, "rb") as newer:
                line = newer.readline(LONGEST)
    moment = moment_in(line.decode("utf-8", "replace"))
    return max(0.0, now - moment.timestamp()) if moment else 0.0


def behind(place: str, log: str, now: float) -> Iterable[str]:
    """Whether index-uncache-follow leaves lines unread: what was deleted or banned is served as long."""
    late = late_by(place, log, now) or 0.0
    if late > BEHIND:
        yield (f"index-uncache-follow is {late / 60:.0f} minutes behind {log}: nginx serves what was deleted or banned "
               "since. systemctl restart index-uncache-follow")
