"""What a copy of the index has: names, files, how full their quotas are, and how late its last upload was."""
from __future__ import annotations

import datetime
import os
import sqlite3
import urllib.parse
from contextlib import closing
from typing import Iterator, List, Optional

from package_index.exposition import Metric

# from so many percent on a quota is nearly full, as indexctl says it
HIGH = 80
OF_NAMES = f"""SELECT count(*), coalesce(sum(live), 0), coalesce(sum(charged), 0), coalesce(sum(quota), 0),
    coalesce(sum(100 * charged >= {HIGH} * quota), 0) FROM names WHERE state = 1"""
NAMES = "index_names", "index_files", "index_charged_bytes", "index_quota_bytes", "index_quotas_nearly_full"


def asked(copy: str, *questions: str) -> List[int]:
    """What a copy answers, each question in one row. One that can't be read, or has other tables, says nothing. (It is
    read as it stands: else SQLite would lock it, and write beside it.)"""
    try:
        opened = sqlite3.connect(f"file:{urllib.parse.quote(os.path.abspath(copy))}?mode=ro&immutable=1", uri=True)
        with closing(opened) as db:
            return [it for question in questions for it in db.execute(question).fetchone()]
    except sqlite3.Error:
        return []


def names_in(copy: str) -> Iterator[Metric]:
    yield from map(Metric, (*NAMES, "index_users"), asked(copy, OF_NAMES, "SELECT count(*) FROM users"))


def latest_upload(copy: str) -> Optional[datetime.datetime]:
    """The latest moment of an upload that a copy knows."""
    found = asked(copy, "SELECT coalesce(max(last_upload), 0) FROM names")
    return datetime.datetime.fromtimestamp(found[0], datetime.timezone.utc) if found and found[0] else None
