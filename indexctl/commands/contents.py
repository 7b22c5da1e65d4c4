"""What names have: their files, their releases, and all of one name at once."""
from __future__ import annotations

import argparse
import time
from dataclasses import dataclass
from typing import Any, Dict, List, Optional

from indexctl.cases import CaseRow, lacks_text, ready_text
from indexctl.changes import Desk
from indexctl.command_line import command
from indexctl.commands.arguments import JSON, NAME, NAMES
from indexctl.contents import FileRow, find_contents, releases_of, yanked_text
from indexctl.ends import REFUSED, Stop
from indexctl.names import check_names
from indexctl.near import not_held
from indexctl.probe import open_cases
from indexctl.standings import Standing, find_standing
from indexctl.terminal import Columns, listing, show, texts
from indexctl.transport import Index
from indexctl.units import counted, human


@dataclass(frozen=True)
class StatusRow:
    """All that the index shows of a name."""
    name: str
    state: str
    owners: List[str]
    charge: int
    quota: int
    case: Optional[CaseRow]
    files: List[FileRow]


def size_text(row: Any) -> str:
    return human(row.size)


RELEASE_COLUMNS: Columns = {**texts("release"), "size": size_text, "yanked": yanked_text, **texts("files")}


def contents_of(index: Index, name: str) -> List[FileRow]:
    """The files of a name that has to be held, as they are now. In a page that nginx keeps for a second or two, a file
    that was just deleted or banned would be listed still."""
    found = find_contents(index, name, is_fresh=True)
    if found is None:
        raise Stop(REFUSED, not_held(index, name))
    return found


@command("files", NAMES, JSON)
def files(args: argparse.Namespace) -> None:
    """The newest release comes first."""
    check_names(*args.names)
    index = Desk(args).index
    rows = [row for name in args.names for row in contents_of(index, name)]
    listing(args, rows, {**texts("file", "release"), "size": size_text, **texts("python"), "yanked": yanked_text,
                         **texts("sha256")})


@command("releases", NAME, JSON)
def releases(args: argparse.Namespace) -> None:
    check_names(args.name)
    rows = releases_of(args.name, contents_of(Desk(args).index, args.name))
    listing(args, rows, RELEASE_COLUMNS)


@command("status", NAME, JSON)
def status(args: argparse.Namespace) -> None:
    check_names(args.name)
    desk = Desk(args)
    found = find_standing(desk.index, args.name)
    if found.state == "free":
        raise Stop(REFUSED, not_held(desk.index, args.name))
    row = status_row(desk, found)
    show(args, row, status_texts(row))
    if row.files and not args.json:
        listing(args, releases_of(row.name, row.files), RELEASE_COLUMNS)


def status_row(desk: Desk, found: Standing) -> StatusRow:
    cases = open_cases(desk, [found], int(time.time()))[0] if found.case else []
    return StatusRow(found.shown or found.name, found.state, found.owners, found.charge, found.quota,
                     cases[0] if cases else None, find_contents(desk.index, found.name, is_fresh=True) or [])


def status_texts(row: StatusRow) -> Dict[str, str]:
    """What is said of a name, above its releases."""
    if row.state != "held":
        return {"name": row.name, "state": row.state}
    found = {"name": row.name, "state": row.state, "owners": ", ".join(row.owners),
             "quota": f"{human(row.charge)} of {human(row.quota)}", "files": counted(len(row.files), "file"),
             "yanked": counted(sum(it.yanked is not None for it in releases_of(row.name, row.files)), "release")}
    if row.case:
        found.update(case=f"of {row.case.candidate}, to {row.case.kind} the name", ready=ready_text(row.case),
                     lacks=lacks_text(row.case))
    return found
