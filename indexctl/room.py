"""Room: which releases of a name are more than those that stay."""
from __future__ import annotations

import datetime
from contextlib import suppress
from fnmatch import fnmatchcase
from typing import List, Optional, Sequence, Set, Tuple

from indexctl.contents import ReleaseRow
from indexctl.versions import is_release, numbers_of, order

# how many digits of a number are a day, or a day and a time
DAY_FORMS = {8: "%Y%m%d", 10: "%Y%m%d%H", 12: "%Y%m%d%H%M", 14: "%Y%m%d%H%M%S"}
FIRST_YEAR = 2000


def day_of(release: str) -> Optional[datetime.date]:
    """The day on which a release was built, as its version says it: by a dev, post or pre number that is a date, such
    as 1.0.dev20261130. The index keeps no times of uploads."""
    for number in numbers_of(release):
        with suppress(KeyError, ValueError):
            found = datetime.datetime.strptime(number, DAY_FORMS[len(number)]).date()
            if found.year >= FIRST_YEAR:
                return found
    return None


def releases_over(rows: Sequence[ReleaseRow], keep: int, pattern: str = "*") -> List[ReleaseRow]:
    """Of releases that are like the pattern, the newest first, those older than so many versions (PEP 440).

    A yanked version is not counted, since nobody gets it unasked; it stays if it is newer than the last that counts.
    What is not a version has no place in the order, and stays."""
    found = [it for it in rows if is_release(it.release) and fnmatchcase(it.release, pattern.lower())]
    counted: Set[Tuple[object, ...]] = set()
    for at, row in enumerate(found):
        # (1.0 and 1.00 are one version)
        version = order(row.release)[:-1]
        if len(counted) == keep and version not in counted:
            return found[at:]
        if row.yanked is None:
            counted.add(version)
    return []


def older_than(rows: Sequence[ReleaseRow], days: int, today: datetime.date) -> List[ReleaseRow]:
    """Those whose versions say a day that is more than so many days ago."""
    dated = ((row, day_of(row.release)) for row in rows)
    return [row for row, day in dated if day and (today - day).days > days]
