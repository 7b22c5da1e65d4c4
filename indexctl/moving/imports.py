"""An import: all files of a source are brought to the index, four at a time."""
from __future__ import annotations

import csv
import threading
from dataclasses import dataclass, field
from typing import Callable, Dict, Iterator, List, Sequence, Tuple

from indexctl.changes import Desk
from indexctl.ends import WRONG, Stop
from indexctl.moving.items import Found, Item, Left
from indexctl.moving.pool import at_once, at_once_shown
from indexctl.moving.sources import Source
from indexctl.moving.targets import IMPORTED, LEFT, THERE, Target
from package_index.names import is_name, is_user, normal

Owners = Dict[str, List[str]]
MOST_SHOWN = 10


@dataclass
class Report:
    """What became of an import."""
    imported: int = 0
    there: int = 0
    claimed: List[str] = field(default_factory=list)
    yanked: List[str] = field(default_factory=list)
    owners: List[str] = field(default_factory=list)
    left: List[Left] = field(default_factory=list)


class Import:
    """The import of what was found at a source. `is_dry` looks at all, and changes nothing."""

    def __init__(self, desk: Desk, source: Source, found: Found, is_dry: bool, stopped: threading.Event,
                 tell: Callable[[str], None]) -> None:
        self.source, self.stopped, self.tell, self.report = source, stopped, tell, Report(left=list(found.left))
        self.targets = [Target(desk, project, is_dry) for _, project in sorted(found.projects.items())]

    def run(self, owners: Owners) -> None:
        """Brings all files, then what names have beside them. The report is right wherever this ends."""
        try:
            self.bring_files()
            for _ in at_once(Target.finish, self.targets, self.stopped):
                pass
            self.add_owners(owners)
        finally:
            for target in self.targets:
                self.report.claimed += [target.name] if target.claimed else []
                self.report.yanked += [f"{target.name} {release}" for release in target.yanked]
                self.report.left += target.left

    def bring_files(self) -> None:
        todo = [(target, item) for target in self.targets for item in target.project.items]
        counts = {target.name: {"": len(target.project.items), IMPORTED: 0, THERE: 0, LEFT: 0}
                  for target in self.targets}
        for target, outcome in at_once_shown("files", self.bring, todo, self.stopped):
            count = counts[target.name]
            count[outcome] += 1
            self.report.imported += outcome == IMPORTED
            self.report.there += outcome == THERE
            if sum(count[it] for it in (IMPORTED, THERE, LEFT)) == count[""] > count[THERE]:
                self.tell(f"{target.name}: " + ", ".join(f"{count[it]} {it}" for it in (IMPORTED, THERE, LEFT)
                                                         if count[it]))

    def bring(self, one: Tuple[Target, Item]) -> Tuple[Target, str]:
        return one[0], one[0].bring(self.source, one[1])

    def add_owners(self, owners: Owners) -> None:
        """Makes the owners of a file owners here too. Those who are no users are left, each with the names."""
        strangers: Dict[str, List[str]] = {}
        for target in self.targets:
            for user in owners.get(target.name, ()) if not target.why_closed() else ():
                answer = "NoUser" if user in strangers else target.add_owner(user)
                if answer == "NoUser":
                    strangers.setdefault(user, []).append(target.name)
                elif answer:
                    target.left.append(Left(f"owner {user} of {target.name}", answer))
                else:
                    self.report.owners.append(f"{user} of {target.name}")
        self.report.left += [Left(f"owner {user} of {some(names)}", f"there is no user {user}")
                             for user, names in strangers.items()]


def some(names: Sequence[str]) -> str:
    """The names, of which a person needs no more than a few."""
    more = f", .. ({len(names)} names)" if len(names) > MOST_SHOWN else ""
    return f"{', '.join(names[:MOST_SHOWN])}{more}"


def read_owners(path: str) -> Owners:
    """The owners that a file has, a line `name,user` for each."""
    found: Owners = {}
    try:
        with open(path, encoding="utf-8-sig", newline="") as kept:
            for number, name, user in owner_rows(kept.read().splitlines()):
                if not is_name(name) or not is_user(user):
                    raise Stop(WRONG, f"{path}, line {number}: {name!r} is no name, or {user!r} no user id. Write "
                                      "`name,user`; a user id is 1 to 32 of the letters a to z and the digits.")
                found.setdefault(normal(name), []).append(user)
    except (OSError, UnicodeDecodeError, csv.Error) as end:
        raise Stop(WRONG, f"{path} can't be read: {getattr(end, 'strerror', None) or end}") from end
    return found


def owner_rows(lines: Sequence[str]) -> Iterator[Tuple[int, str, str]]:
    """The rows with their numbers, without a head and without empty ones."""
    for number, row in enumerate(csv.reader(lines), 1):
        cells = [it.strip() for it in row]
        if any(cells) and cells != ["name", "user"]:
            yield number, cells[0], cells[1] if len(cells) == 2 else ""

