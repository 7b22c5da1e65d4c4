"""What the index shows: how names stand, its pages, and walks over all names."""
from __future__ import annotations

import functools
import queue
import secrets
import threading
import urllib.parse
from contextlib import suppress
from dataclasses import dataclass, field
from typing import Any, Callable, Dict, Iterator, List, Optional, Sequence, Tuple, TypeVar, get_type_hints

from indexctl.ends import REFUSED, UNREACHED, Stop
from indexctl.names import is_text
from indexctl.terminal import Progress
from indexctl.transport import JSON_PAGE, Index, Request, foreign, object_of
from package_index.hints import hint
from package_index.names import is_name, normal

Item = TypeVar("Item")
Result = TypeVar("Result")
SIDE_BY_SIDE = 8
# so many items go to a thread at once, in a long walk
MOST_AT_ONCE = 64
# the largest number, and the latest moment, that a standing may have: both can be told in words
MOST_NUMBER, LAST_MOMENT = 1 << 60, 250_000_000_000


@dataclass(frozen=True)
class Case:
    """An open case, as the index shows it."""
    kind: str
    candidate: str
    contact: str
    work: str
    why: str
    opened: int
    attempts: int
    sent: int
    profile: bool
    author: bool
    pages: bool
    first: Optional[int]

    def has(self, means: str) -> bool:
        """Whether an attempt was made by these means."""
        return getattr(self, means, False) is True


# of what each case has: `first` may be missing
CASE_KINDS = {key: kind for key, kind in get_type_hints(Case).items() if key != "first"}


@dataclass(frozen=True)
class Standing:
    """How a name stands: free, prohibited, or held, with its owners, quota, charge and case. `given` is the reply."""
    name: str
    state: str
    shown: str = ""
    owners: List[str] = field(default_factory=list)
    charge: int = 0
    quota: int = 0
    case: Optional[Case] = None
    given: Dict[str, Any] = field(default_factory=dict)


def is_number(value: object, most: int = MOST_NUMBER) -> bool:
    """Whether a value is a number from 0 on, and at most so much. `True` is no number."""
    return type(value) is int and 0 <= value <= most


def is_standing(found: Dict[str, Any]) -> bool:
    """Whether an object is the standing of a name, whole, so that what reads it needn't look again."""
    name = found.get("name")
    if not isinstance(name, str) or not is_name(name) or found.get("state") not in ("free", "prohibited", "held"):
        return False
    if found["state"] != "held":
        return True
    case, owners = found.get("case"), found.get("owners")
    return (is_number(found.get("quota")) and is_number(found.get("charge")) and isinstance(found.get("shown"), str)
            and isinstance(owners, list) and all(isinstance(it, str) for it in owners)
            and (case is None or is_case(case)))


def is_case(case: Any) -> bool:
    return (isinstance(case, dict) and all(type(case.get(key)) is kind for key, kind in CASE_KINDS.items())
            and is_number(case["opened"], LAST_MOMENT) and is_number(case["attempts"]) and is_number(case["sent"])
            and (case.get("first") is None or is_number(case["first"], LAST_MOMENT)))


def standing_of(found: Dict[str, Any]) -> Standing:
    """The standing that an object says, by `is_standing`."""
    if found["state"] != "held":
        return Standing(found["name"], found["state"], given=found)
    case = found.get("case")
    made = None if case is None else Case(first=case.get("first"), **{key: case[key] for key in CASE_KINDS})
    return Standing(found["name"], found["state"], found["shown"], found["owners"], found["charge"], found["quota"],
                    made, found)


def path_of(name: str) -> str:
    return f"/names/{urllib.parse.quote(name, safe='')}"


def page_of_project(name: str) -> str:
    return f"/simple/{urllib.parse.quote(normal(name), safe='')}/"


def find_standing(index: Index, name: str) -> Standing:
    """How a name stands."""
    reply = index.ask(name, Request("GET", path_of(name)))
    found = object_of(reply.body)
    if reply.status == 200 and found and is_standing(found):
        return standing_of(found)
    if found and found.get("answer") in ("refused", "message"):
        answer = str(found.get("name"))
        raise Stop(REFUSED, f"{name}: {reply.status} {answer}. {hint(answer)}".rstrip())
    raise foreign(name, reply)


def find_page(index: Index, path: str, rows: str, key: str, is_fresh: bool = False) -> Optional[Dict[str, Any]]:
    """A page, of which the list `rows` has a text at `key` in each row, or None if there is none.

    nginx keeps a page for a second or two, by its path and by Accept. A fresh page is asked for with a type more, which
    nobody has and which is another each time, so that it comes from the index."""
    more = f", application/x-fresh-{secrets.token_hex(8)}" if is_fresh else ""
    reply = index.ask(path, Request("GET", path, (("Accept", f"{JSON_PAGE}{more}"),)))
    found = object_of(reply.body) or {}
    if reply.status == 404 and found.get("name") == "NoProject":
        return None
    listed = found.get(rows)
    if reply.status != 200 or not isinstance(listed, list):
        raise foreign(path, reply)
    if not all(isinstance(it, dict) and isinstance(it.get(key), str) and is_text(it[key]) for it in listed):
        raise foreign(path, reply)
    return found


def side_by_side(function: Callable[[Sequence[Item]], List[Result]], items: Sequence[Item],
                 what: str) -> Iterator[Result]:
    """What a function gives for the items, some at a time, in their order and as it comes. Several threads ask; the
    first failure ends the walk."""
    length = max(1, min(MOST_AT_ONCE, len(items) // (4 * SIDE_BY_SIDE)))
    starts: queue.SimpleQueue[int] = queue.SimpleQueue()
    given: queue.SimpleQueue[Tuple[int, List[Result], Optional[BaseException]]] = queue.SimpleQueue()
    for at in range(0, len(items), length):
        starts.put(at)

    def work() -> None:
        with suppress(queue.Empty):
            while True:
                at = starts.get_nowait()
                try:
                    given.put((at, function(items[at:at + length]), None))
                except BaseException as end:
                    given.put((at, [], end))
                    return
    for _ in range(min(SIDE_BY_SIDE, len(items))):
        # they end with the program: Ctrl-C waits for none of them
        threading.Thread(target=work, daemon=True).start()
    found: Dict[int, List[Result]] = {}
    with Progress(what, len(items)) as progress:
        for due in range(0, len(items), length):
            while due not in found:
                at, results, end = given.get()
                if end:
                    raise end
                found[at] = results
                progress.step(len(results))
            yield from found.pop(due)


def walked_standings(index: Index, names: Sequence[str]) -> List[Standing]:
    """How names of the index's list stand. A reply that is no standing of its name is asked for once more, by
    `find_standing`, which says what it is."""
    def standing(name: str, body: Optional[bytes]) -> Standing:
        found = object_of(body or b"")
        is_own = found and is_standing(found) and found["name"] == normal(name)
        return standing_of(found) if found and is_own else find_standing(index, name)
    return [standing(*it) for it in zip(names, index.glances([path_of(name) for name in names]))]


def listed_names(index: Index, is_fresh: bool = False) -> List[str]:
    """The held names, in the order of the index's list."""
    listed = find_page(index, "/simple/", "projects", "name", is_fresh)
    if listed is None:
        raise Stop(UNREACHED, f"{index.setting.url}/simple/ is not there, and each index has it.")
    return [it["name"] for it in listed["projects"]]


def held_names(index: Index, is_fresh: bool = False) -> Iterator[Standing]:
    """The standing of each held name, as it comes. One that is given up meanwhile is left out.

    Each is asked for each time: the index gives no sign by which a standing that was kept could be known to be as it
    was."""
    return standings_of(index, listed_names(index, is_fresh))


def standings_of(index: Index, names: Sequence[str]) -> Iterator[Standing]:
    """The standings of these names of the index's list that are held."""
    return (it for it in side_by_side(functools.partial(walked_standings, index), names, "names") if it.state == "held")
