"""What two machines with one index share: a disk that DRBD copies, and the units that run on one of them."""
from __future__ import annotations

import os
import re
from contextlib import contextmanager
from typing import Iterator, NamedTuple

from package_index.commands import run
from package_index.ends import Interrupted, Refused, held, say, tell

FOLDER = "/var/lib/index"
MOUNTS = "/proc/self/mounts"
# by which index.service starts only where the disk is
DROP_IN = "/etc/systemd/system/index.service.d/on-drbd.conf"
# the service is last: a timer may start it again, and so may a backup that is under way
UNITS = ["index-health.timer", "index-backup.timer", "index-health.service", "index-backup.service", "index.service"]
NAME = re.compile(r"[A-Za-z0-9][A-Za-z0-9._-]*")
# what the running configuration may not lack or have, and what happens then
WRONG = [
    (r"\A(?!.*\bfencing\s+resource-and-stonith;)", "it lacks `fencing resource-and-stonith`, so both machines could "
     "become primary and bind the same file names"),
    (r"\bprotocol\s+[AB];", "it has a protocol other than C, so one machine alone may have an acknowledged upload"),
    (r"\ballow-two-primaries\s+yes;", "it has `allow-two-primaries`"),
    (r"\bafter-sb-[012]pri\s+(?!disconnect;)", "it has an `after-sb-..` other than `disconnect`, which drops "
     "acknowledged uploads after a split brain"),
    (r"\b(?:disk|md)-flushes\s+no;", "it has `disk-flushes no` or `md-flushes no`, which loses acknowledged uploads"),
]


class Disk(NamedTuple):
    """The resource of DRBD, and its device."""
    resource: str
    device: str


def is_shared() -> bool:
    """Whether this is one of two machines, on which `index-take` starts the units, and no start of a machine."""
    return os.path.exists(DROP_IN)


def index_is_elsewhere() -> bool:
    """Whether this is the one of two machines that has no index now, and so makes no copies of it."""
    return is_shared() and not os.path.ismount(FOLDER)


def running_disk(resource: str) -> Disk:
    """The disk of this resource. Refuses if it is not up here, or if its running configuration is not safe."""
    if not NAME.fullmatch(resource):
        raise Refused(f"{resource!r} is not the name of a resource")
    printed = run("drbdadm", "sh-dev", resource)
    devices = re.findall(r"^/dev/\S+$", printed, re.MULTILINE)
    if len(devices) != 1:
        raise Refused(f"drbdadm sh-dev {resource} prints {len(devices)} devices, and not one: {printed.strip()}")
    shown = shown_of(resource)
    found = [said for pattern, said in WRONG if re.search(pattern, shown, re.DOTALL)]
    if not re.search(r"\bfence-peer\s+\S", run("drbdadm", "dump", resource)):
        found.append("its file has no `fence-peer`, so no machine can go on alone")
    if found:
        raise Refused(f"{resource} is not safe as it runs: {'; '.join(found)}. Compare /etc/drbd.d/{resource}.res on "
                      "both machines with /usr/share/package-index/two-machines/index.res, and correct it; then "
                      f"drbdadm adjust {resource}")
    return Disk(resource, devices[0])


def shown_of(resource: str) -> str:
    """The running configuration of a resource, as DRBD shows it."""
    try:
        shown = run("drbdsetup", "show", resource)
    except Refused as end:
        raise Refused(f"{end}. If {resource} is not up on this machine: drbdadm up {resource}") from None
    if not re.search(rf"^resource\s+\"?{re.escape(resource)}\"?\s*{{", shown, re.MULTILINE):
        raise Refused(f"{resource} is not up on this machine: drbdadm up {resource}")
    return shown


def mounted_at(folder: str) -> str:
    """The device that is mounted there last, or nothing."""
    found = ""
    with open(MOUNTS, encoding="utf-8", errors="replace") as mounts:
        for line in mounts:
            device, at = line.split()[:2]
            if at == folder:
                found = device
    return found


def step(*words: str, says: str) -> None:
    """Runs a command to its end, which a signal does not cut short, and prints what holds now."""
    with held():
        run(*words)
        tell(f"{says}\n")


@contextmanager
def advice(name: str, text: str) -> Iterator[None]:
    """Says what to do next if a program ends before it is done."""
    try:
        yield
    except (Refused, OSError) as end:
        raise Refused(f"{end}\n{name}: {text}") from None
    except Interrupted:
        say(name, text)
        raise
