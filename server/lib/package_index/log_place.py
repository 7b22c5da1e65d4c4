"""Where nginx's log of changes is, which is set in one place: in nginx's own configuration. All that read the log look
there."""
from __future__ import annotations

import glob
import os
import re
from typing import List, Tuple

CONF = "/etc/nginx/conf.d/packages.conf"
# where the nginx of the package writes it
LOG = "/var/log/package-index/changes.log"
SETTING = re.compile(r'^\s*access_log\s+"?([^\s;"]+)"?\s+index_changes\b', re.M)


def log_of_changes(conf: str = CONF) -> str:
    """The log that this configuration names; that of the package if there is none, as on a machine without nginx."""
    try:
        with open(conf, encoding="utf-8", errors="replace") as kept:
            found = SETTING.search(kept.read())
    except OSError:
        found = None
    return found[1] if found else LOG


def rotated(log: str) -> List[str]:
    """A log and those of it that were rotated away, the oldest first. If its name is a link, they are beside what it
    leads to."""
    log = os.path.realpath(log)
    return sorted((it for it in glob.glob(f"{glob.escape(log)}*") if os.path.isfile(it)), key=lambda it: age(log, it))


def age(log: str, path: str) -> Tuple[int, float]:
    """What sorts the files of a log: how often each was rotated, by its name, which no clock that is set changes. Those
    of other names, such as those with a date, come first, by when each was written last."""
    number = re.fullmatch(r"\.(\d{1,4})(\.\w+)?", path[len(log):])
    return (2, 0) if path == log else (1, -int(number[1])) if number else (0, os.path.getmtime(path))
