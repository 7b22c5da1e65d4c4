"""What nginx's log of changes says in numbers: how many changes of each kind got which status, and how long they took.
A run counts on from where the one before ended."""
from __future__ import annotations

import json
import re
from bisect import bisect_left
from itertools import accumulate
from typing import Any, Dict, Iterator, List, NamedTuple, Optional, Tuple

from package_index import grown
from package_index.exposition import Metric
from package_index.followed import Place

# what a POST may ask, by its `do`
ASKED = ("add_owner", "add_user", "allow", "answer_case", "ban_file", "claim", "close_case", "open_case", "prohibit",
         "record_attempt", "relinquish", "remove_owner", "set_quota", "set_token", "transfer", "unyank", "yank")
KINDS = ("upload", "legacy_upload", "delete", *ASKED, "other")
UPLOADS = "upload", "legacy_upload"
KIND_OF = {it.encode(): it for it in ASKED}
# of these each kind is told also if there was none yet: a rate wants to see the first one come
ALWAYS = 200, 401, 500
# the bounds of a histogram, in seconds; nginx waits 60 s for an index
BOUNDS = 0.05, 0.1, 0.25, 0.5, 1.0, 2.5, 5.0, 10.0, 30.0, 60.0


# a line as packages.conf writes it, for speed; no value has a quotation mark that stands alone
USUAL = re.compile(rb'"status":(\d{3}),"reached":(true|false),"took":(\d+\.\d+),"method":"(POST|PUT|DELETE)",'
                   rb'"path":"([^"\\]*)".*?"body":"(?:\{ *\\"do\\": *\\"([a-z_]+)\\")?')


class Counted(NamedTuple):
    """Up to where the log was read, and when; how many changes there were by kinds and statuses; and of uploads and of
    others how many took up to each bound and no less, how many took longer, and the seconds of all."""
    place: Optional[Place]
    at: float
    changes: Dict[str, Dict[str, int]]
    took: Dict[str, List[float]]


NONE = Counted(None, 0.0, {}, {})


def counted_in(said: Any) -> Counted:
    """What was kept, by a text of JSON. One that is not whole is a ValueError, KeyError or TypeError."""
    place = said["place"]
    changes = {kind: {str(int(it)): int(count) for it, count in by.items()} for kind, by in said["changes"].items()}
    took = {of: [float(it) for it in row] for of, row in said["took"].items() if len(row) == len(BOUNDS) + 2}
    return Counted(Place(*place) if place else None, float(said["at"]), changes, took)


def kind_of(said: Dict[str, Any]) -> str:
    """What a line of the log asks for. A client may write anything, and makes no kind of its own by that."""
    if said["method"] != "POST":
        return {"PUT": "upload", "DELETE": "delete"}.get(said["method"], "other")
    if said["path"] == "/legacy/":
        return "legacy_upload"
    try:
        asked = json.loads(said["body"])["do"]
    except (ValueError, KeyError, TypeError, RecursionError):
        return "other"
    return next((it for it in ASKED if it == asked), "other")


def slowly_read(line: bytes) -> Tuple[str, int, Optional[float]]:
    """The kind of a change, its status, and how long it took if an index got it: a log of before has no time. A line
    that can't be read is one of the errors of `count`."""
    said = json.loads(line)
    took = float(said["took"]) if said.get("reached") is True and "took" in said else None
    return kind_of(said), int(said["status"]), took


def quickly_read(line: bytes) -> Tuple[str, int, Optional[float]]:
    """The same, of a usual line without a look at all of it."""
    found = USUAL.search(line)
    if not found:
        return slowly_read(line)
    status, reached, took, method, path, do = found.groups()
    if method == b"POST" and (do is None or path == b"/legacy/"):
        return slowly_read(line)
    kind = KIND_OF.get(do, "other") if method == b"POST" else "upload" if method == b"PUT" else "delete"
    return kind, int(status), float(took) if reached == b"true" else None


def count(line: bytes, counts: Counted) -> None:
    """Adds a line of the log. One that can't be read is passed over."""
    try:
        kind, status, took = quickly_read(line)
    except (ValueError, KeyError, TypeError, AttributeError, RecursionError):
        return
    by = counts.changes.setdefault(kind, {})
    by[str(status)] = by.get(str(status), 0) + 1
    if took is not None:
        row = counts.took.setdefault("uploads" if kind in UPLOADS else "others", [0.0] * (len(BOUNDS) + 2))
        row[bisect_left(BOUNDS, took)] += 1
        row[-1] += took


def read_on(log: str, before: Counted, now: float) -> Counted:
    """Adds the lines that came since. If the place is gone, those of the files that were written into since then."""
    counts = before._replace(changes={kind: {**by} for kind, by in before.changes.items()},
                             took={of: [*row] for of, row in before.took.items()})
    place = grown.read_on(log, before.place, before.at, lambda line: count(line, counts), int)
    return counts._replace(place=place, at=now)


def metrics(counts: Counted) -> Iterator[Metric]:
    for kind in KINDS:
        by = {**{str(it): 0 for it in ALWAYS}, **counts.changes.get(kind, {})}
        for status, number in sorted(by.items()):
            yield Metric("index_changes_total", number, (("kind", kind), ("status", status)))
    for of in ("uploads", "others"):
        *each, took = counts.took.get(of, [0.0] * (len(BOUNDS) + 2))
        up_to = list(map(int, accumulate(each)))
        for bound, below in zip((*map(str, BOUNDS), "+Inf"), up_to):
            yield Metric("index_change_seconds_bucket", below, (("of", of), ("le", bound)))
        yield Metric("index_change_seconds_sum", round(took, 3), (("of", of),))
        yield Metric("index_change_seconds_count", up_to[-1], (("of", of),))
