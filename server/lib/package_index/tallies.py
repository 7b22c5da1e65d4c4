"""How many changes failed or were refused in each minute of the last day, by nginx's log of changes. A look reads on
where the one before ended, so that it takes as long as the log grows."""
from __future__ import annotations

import datetime
import functools
import re
from typing import Dict, List, NamedTuple, Optional, Tuple

from package_index import grown
from package_index.followed import Place

HOUR, DAY, MINUTE = 3600, 86400, 60
# of a line of the log: no value has a quotation mark that stands alone
AT, STATUS = re.compile(rb'"(?:at|time)":\s*"([^"]{1,40})"'), re.compile(rb'"status":\s*([45]\d\d)[,}]')
FAILED, NO_TOKEN, REFUSED = range(3)
Counts = Dict[str, List[int]]


class Tally(NamedTuple):
    """Up to where the log was read; and by minutes since 1970 how many changes failed (500), had a wrong token (401),
    and were refused otherwise."""
    place: Optional[Place]
    minutes: Counts


@functools.lru_cache(maxsize=1024)
def minute_of(text: bytes) -> Optional[int]:
    try:
        return int(datetime.datetime.fromisoformat(text.decode("ascii")).timestamp() // MINUTE)
    except ValueError:
        return None


def kind_of(status: int) -> Optional[int]:
    """What is counted: not an index that is away, or starts, for which index-health looks."""
    if status >= 500:
        return FAILED if status == 500 else None
    return NO_TOKEN if status == 401 else REFUSED


def count(line: bytes, minutes: Counts) -> None:
    """Counts a line, if it is of a change that failed or was refused."""
    status = STATUS.search(line)
    kind = kind_of(int(status[1])) if status else None
    at = AT.search(line) if kind is not None else None
    minute = minute_of(at[1]) if at else None
    if kind is not None and minute is not None:
        minutes.setdefault(str(minute), [0, 0, 0])[kind] += 1


def read_on(log: str, before: Tally, now: float) -> Tally:
    """Adds the lines that came since. If the place is not there any more, all of the last day is counted again."""
    minutes = {it: [*counted] for it, counted in before.minutes.items()}
    place = grown.read_on(log, before.place, now - DAY, lambda line: count(line, minutes), minutes.clear)
    return Tally(place, {it: counted for it, counted in minutes.items() if 0 <= now - int(it) * MINUTE <= DAY + MINUTE})


def within(tally: Tally, now: float, kind: int) -> Tuple[int, int]:
    """How many of a kind came in the last hour, and in the 23 hours before it."""
    ages = [(now // MINUTE - int(it), counted[kind]) for it, counted in tally.minutes.items()]
    last = sum(number for age, number in ages if 0 <= age <= HOUR / MINUTE)
    return last, sum(number for age, number in ages if HOUR / MINUTE < age <= DAY / MINUTE)
